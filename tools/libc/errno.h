/* The declarations of <errno.h> that the C programs here use, for machines that have no x86-64 headers. */
int *__errno_location(void);
#define errno (*__errno_location())

#define ENOENT 2
#define EIO 5
#define EBADF 9
#define EACCES 13
#define EISDIR 21
#define ENOSPC 28
#define EPIPE 32
