/* The four routines of memory. By -ffreestanding and -fno-tree-loop-distribute-patterns gcc leaves their loops as they
   are; without these two it makes of the loop in memcpy a call of memcpy. */
#include <stdint.h>
#include "memory.h"

/* The two do not overlap. */
void *memcpy(void *restrict to, const void *restrict from, size_t length)
{
    unsigned char *restrict end = to;
    const unsigned char *restrict next = from;
    while (length-- > 0)
        *end++ = *next++;
    return to;
}

/* The two may overlap: no byte is written before it is read. Their addresses are compared as numbers, since C orders
   pointers within one object alone. */
void *memmove(void *to, const void *from, size_t length)
{
    unsigned char *target = to;
    const unsigned char *source = from;
    if ((uintptr_t)to <= (uintptr_t)from) {
        for (size_t i = 0; i < length; i++)
            target[i] = source[i];
    } else {
        while (length-- > 0)
            target[length] = source[length];
    }
    return to;
}

void *memset(void *to, int value, size_t length)
{
    unsigned char *end = to;
    while (length-- > 0)
        *end++ = (unsigned char)value;
    return to;
}

/* Below 0, 0 or above 0, by the first bytes that differ, as numbers from 0 to 255. */
int memcmp(const void *a, const void *b, size_t length)
{
    const unsigned char *left = a;
    const unsigned char *right = b;
    for (; length > 0; length--, left++, right++)
        if (*left != *right)
            return *left - *right;
    return 0;
}
