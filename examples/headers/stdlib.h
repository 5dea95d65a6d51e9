/* What of the C header of this name the programs here use. */
#ifndef HEADERS_STDLIB
#define HEADERS_STDLIB
#include <stddef.h>
void *malloc(size_t size);
void *aligned_alloc(size_t alignment, size_t size);
void free(void *bytes);
void exit(int status) __attribute__((noreturn));
void qsort(void *items, size_t count, size_t size, int (*compare)(const void *, const void *));
unsigned long strtoul(const char *text, char **end, int base);
#endif
