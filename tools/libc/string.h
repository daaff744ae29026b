/* The declarations of <string.h> that the C programs here use, for machines that have no x86-64 headers. */
#include <stddef.h>

void *memcpy(void *, const void *, size_t);
void *memmove(void *, const void *, size_t);
void *memset(void *, int, size_t);
int memcmp(const void *, const void *, size_t);
size_t strlen(const char *);
int strcmp(const char *, const char *);
char *strchr(const char *, int);
size_t strcspn(const char *, const char *);
int strncmp(const char *, const char *, size_t);
char *strerror(int);
