/* The declarations of <signal.h> that the C programs here use, for machines that have no x86-64 headers. */
#define SIGPIPE 13
#define SIGXFSZ 25
#define SIG_IGN ((void (*)(int))1)

void (*signal(int, void (*)(int)))(int);
