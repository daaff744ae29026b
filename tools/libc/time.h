/* The declarations of <time.h> that the C programs here use, for machines that have no x86-64 headers. */
typedef long time_t;

time_t time(time_t *);
