/* What of the C header of this name the programs here use. */
#ifndef HEADERS_STRING
#define HEADERS_STRING
#include <stddef.h>
void *memcpy(void *to, const void *from, size_t count);
void *memset(void *to, int value, size_t count);
int memcmp(const void *left, const void *right, size_t count);
int strcmp(const char *left, const char *right);
#endif
