/* What samples/c and the tests use of it, as the kit's C library has them. */
#pragma once
#include <stddef.h>

typedef struct file FILE;
extern FILE *stdin, *stdout, *stderr;
#define EOF (-1)

extern int printf(const char *, ...);
extern int fprintf(FILE *, const char *, ...);
extern int scanf(const char *, ...);
extern FILE *fopen(const char *, const char *);
extern size_t fread(void *, size_t, size_t, FILE *);
extern size_t fwrite(const void *, size_t, size_t, FILE *);
extern int ferror(FILE *);
extern int fflush(FILE *);
extern int fclose(FILE *);
