/* What of the C header of this name the programs here use. */
#ifndef HEADERS_SYS_MMAN
#define HEADERS_SYS_MMAN
#include <stddef.h>
#define PROT_NONE 0
#define PROT_READ 1
#define PROT_WRITE 2
#define MAP_PRIVATE 2
#define MAP_ANONYMOUS 32
#define MAP_FAILED ((void *)-1)
void *mmap(void *at, size_t length, int may, int flags, int file, long offset);
int mprotect(void *at, size_t length, int may);
#endif
