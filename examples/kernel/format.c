/* Makes a line of a pattern and values, for the kernel and for the programs: %s is a text, %u a number, %x a number in
   eight hexadecimal digits. */
#include <stdarg.h>
#include <stdint.h>

struct line {
    char *at;
    uint32_t length, size;
};

static void put(struct line *line, char c)
{
    if (line->length < line->size)
        line->at[line->length++] = c;
}

static void put_text(struct line *line, const char *text)
{
    while (*text)
        put(line, *text++);
}

static void put_decimal(struct line *line, uint32_t value)
{
    if (value >= 10)
        put_decimal(line, value / 10);
    put(line, '0' + value % 10);
}

static void put_hexadecimal(struct line *line, uint32_t value)
{
    for (int shift = 28; shift >= 0; shift -= 4)
        put(line, "0123456789ABCDEF"[value >> shift & 15]);
}

/* The length of the line; what is past the size is left out. */
uint32_t format(char *at, uint32_t size, const char *pattern, va_list values)
{
    struct line line = {at, 0, size};
    for (; *pattern; pattern++)
        if (*pattern != '%')
            put(&line, *pattern);
        else if (*++pattern == 's')
            put_text(&line, va_arg(values, const char *));
        else if (*pattern == 'u')
            put_decimal(&line, va_arg(values, uint32_t));
        else if (*pattern == 'x')
            put_hexadecimal(&line, va_arg(values, uint32_t));
    return line.length;
}
