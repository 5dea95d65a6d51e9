/* What of the C header of this name the programs here use. */
#ifndef HEADERS_STDIO
#define HEADERS_STDIO
#include <stddef.h>
typedef struct _IO_FILE FILE;
extern FILE *stdin;
extern FILE *stdout;
extern FILE *stderr;
FILE *fopen(const char *name, const char *mode);
int fclose(FILE *file);
size_t fread(void *bytes, size_t size, size_t count, FILE *file);
size_t fwrite(const void *bytes, size_t size, size_t count, FILE *file);
int ferror(FILE *file);
int fflush(FILE *file);
int printf(const char *form, ...);
int fprintf(FILE *file, const char *form, ...);
#endif
