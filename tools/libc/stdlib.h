/* The declarations of <stdlib.h> that the C programs here use, for machines that have no x86-64 headers. */
#include <stddef.h>

void *malloc(size_t);
void *realloc(void *, size_t);
void free(void *);
long atol(const char *);
char *getenv(const char *);
_Noreturn void exit(int);
