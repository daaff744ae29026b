/* The declarations of <unistd.h> that the C programs here use, for machines that have no x86-64 headers. */
int isatty(int);
