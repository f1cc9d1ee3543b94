/* The terminal: lines that are typed, and text that is printed. */
#ifndef TERMINAL_H
#define TERMINAL_H
#include <stdint.h>

void terminal_begin(void);
void terminal_line(char *line, uint32_t size);
void terminal_write(const void *bytes, uint32_t length);
void print(const char *pattern, ...);

#endif
