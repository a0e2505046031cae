/* The calls of the C library that the tests use beside those of tests/c/std: the kit's clang brings no header files. */
#pragma once
#include <stddef.h>
#include <stdint.h>
#include <stdio.h>
#include <stdlib.h>

extern int dprintf(int, const char *, ...);
extern int memcmp(const void *, const void *, size_t);
extern void *memcpy(void *, const void *, size_t);
extern void *memset(void *, int, size_t);
extern void *mmap(void *, size_t, int, int, int, long);
extern int mprotect(void *, size_t, int);

/* as Linux on x86-64 has them */
enum { PROT_NONE = 0, PROT_READ = 1, PROT_WRITE = 2, MAP_PRIVATE = 2, MAP_ANONYMOUS = 32 };
#define MAP_FAILED ((void *)-1)
