/* What the programs have: the kernel's calls, and a little to print with. */
#ifndef USER_H
#define USER_H
#include <stdint.h>
#include "../calls.h"

/* start.s: TRAP #0. */
uint32_t call(enum call_number number, ...);

/* sum.s: of the numbers from 1 on. */
uint32_t sum(uint32_t number);

/* pieces.s: how many of PIECES values were read as they were written. */
enum { PIECES = 6 };
uint32_t pieces(uint32_t value);

/* print.c */
void print(const char *pattern, ...);

void shell(void);
void primes(void);
void tell_time(void);

#endif
