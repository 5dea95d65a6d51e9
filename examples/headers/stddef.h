/* What of the C header of this name the programs here use: the kit has the C library and no headers. */
#ifndef HEADERS_STDDEF
#define HEADERS_STDDEF
typedef __SIZE_TYPE__ size_t;
#define NULL ((void *)0)
#endif
