/* The four routines of memory that gcc calls by itself, where a structure is copied or cleared, in freestanding code
   too. */
#ifndef MEMORY_H
#define MEMORY_H
#include <stddef.h>

void *memcpy(void *restrict to, const void *restrict from, size_t length);
void *memmove(void *to, const void *from, size_t length);
void *memset(void *to, int value, size_t length);
int memcmp(const void *a, const void *b, size_t length);

#endif
