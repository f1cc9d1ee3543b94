/* Prints a line: one call of the kernel, so that no other process's text comes between. */
#include <stdarg.h>
#include "user.h"

uint32_t format(char *line, uint32_t size, const char *pattern, va_list values);

void print(const char *pattern, ...)
{
    char line[WRITE_MOST];
    va_list values;
    va_start(values, pattern);
    uint32_t length = format(line, sizeof line, pattern, values);
    va_end(values);
    call(CALL_WRITE, line, length);
}
