/* The declarations of <fcntl.h> that the C programs here use, for machines that have no x86-64 headers. */
#define O_RDONLY 0
#define O_WRONLY 1
#define F_GETFD 1

int open(const char *, int, ...);
int fcntl(int, int, ...);
