/* The functions of the C library that the programs here call, for the kit's clang, which comes with no headers. */
#ifndef KIT_STDIO_H
#define KIT_STDIO_H

#include <stddef.h>

typedef struct kit_file FILE;
#define EOF (-1)

int printf(const char *format, ...);
int snprintf(char *into, size_t size, const char *format, ...);
FILE *fopen(const char *name, const char *mode);
size_t fread(void *into, size_t size, size_t count, FILE *file);
int getc(FILE *file);
FILE *fmemopen(void *bytes, size_t size, const char *mode);
int fclose(FILE *file);

#endif
