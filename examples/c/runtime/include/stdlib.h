#ifndef STDLIB_H
#define STDLIB_H

#include <stddef.h>

void *malloc(size_t length);
void *calloc(size_t count, size_t length);
void free(void *it);
void qsort(void *all, size_t count, size_t size, int (*compare)(const void *, const void *));
_Noreturn void exit(int status);

#endif
