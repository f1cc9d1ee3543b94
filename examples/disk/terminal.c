/* What is typed comes by interrupts and waits in a ring. It is shown when it is taken, not when it comes. */
#include <stdarg.h>
#include <stdbool.h>
#include "board.h"
#include "terminal.h"

enum { RING = 256 };

static volatile char typed[RING];
static volatile uint32_t first, end;    /* counted from the start on; their places are modulo RING */
static volatile bool is_lost;

/* ../kernel/format.c */
uint32_t format(char *line, uint32_t size, const char *pattern, va_list values);

void terminal_begin(void)
{
    TERMINAL_CONTROL = CONTROL_INTERRUPT;
    interrupts_on();
}

/* The interrupt stays until the queue is empty. */
__attribute__((interrupt_handler)) void terminal_interrupt(void)
{
    while (TERMINAL_STATUS & STATUS_RECEIVED) {
        char c = (char)TERMINAL_DATA;
        if (end - first < RING)
            typed[end++ % RING] = c;
        else
            is_lost = true;
    }
    if (TERMINAL_STATUS & STATUS_OVERRUN) {
        TERMINAL_STATUS = 0;
        is_lost = true;
    }
}

/* A byte that comes between the look and the wait would be slept over, so none can come there. */
static char take(void)
{
    interrupts_off();
    while (first == end) {
        wait_for_interrupt();
        interrupts_off();
    }
    interrupts_on();
    return typed[first++ % RING];
}

/* Takes a line, with a 0 for its line feed; what does not fit is left out. */
void terminal_line(char *line, uint32_t size)
{
    uint32_t length = 0;
    for (char c; (c = take()) != '\n';) {
        if (c >= ' ' && c <= '~' && length + 1 < size) {
            line[length++] = c;
            TERMINAL_DATA = (uint8_t)c;
        }
    }
    line[length] = 0;
    TERMINAL_DATA = '\n';
    if (is_lost)
        print("typed too fast: something is lost\n");
    is_lost = false;
}

void terminal_write(const void *bytes, uint32_t length)
{
    const uint8_t *at = bytes;
    for (uint32_t i = 0; i < length; i++)
        TERMINAL_DATA = at[i];
}

/* Prints what format makes of a pattern and values. */
void print(const char *pattern, ...)
{
    char line[128];
    va_list values;
    va_start(values, pattern);
    uint32_t length = format(line, sizeof line, pattern, values);
    va_end(values);
    terminal_write(line, length);
}
