/* The terminal. What is typed comes by interrupts, a byte at a time, and is shown as it comes; a line is taken by the
   process that asks for one. What is printed begins a line of its own where a line that is typed is in the way. */
#include "board.h"
#include "kernel.h"

enum { RING = 256, BACKSPACE = 8, DELETE = 127 };

static char typed[RING];        /* lines that nobody took yet, and then the one that is being typed */
static uint32_t first, line_begin, end;         /* counted from the start on; their places are modulo RING */
static uint32_t column;
static const struct process *writer;            /* whose text the line on the screen is; of what is typed, nobody's */
static bool is_asked;           /* a process waits for a line */

static void put(char c)
{
    TERMINAL_DATA = c;
    column = c == '\n' ? 0 : column + 1;
}

static void fresh_line(void)
{
    if (column > 0)
        put('\n');
}

void console_begin(void)
{
    TERMINAL_CONTROL = CONTROL_INTERRUPT;
}

/* The prompt, and what has been typed behind it. */
static void show_typed_line(void)
{
    writer = 0;
    put('>');
    put(' ');
    for (uint32_t i = line_begin; i != end; i++)
        put(typed[i % RING]);
}

void console_prompt(void)
{
    if (is_asked || line_begin != first)
        return;
    is_asked = true;
    fresh_line();
    show_typed_line();
}

static void end_typed_line(void)
{
    typed[end++ % RING] = '\n';
    line_begin = end;
    is_asked = false;
    put('\n');
    processes_have_line();
}

static void take_typed_byte(char c)
{
    if (column == 0 || writer) {
        fresh_line();
        show_typed_line();
    }
    if (c == '\n' || c == '\r') {
        end_typed_line();
    } else if ((c == BACKSPACE || c == DELETE) && end != line_begin) {
        end--;
        put('\b');
        put(' ');
        put('\b');
        column -= 4;
    } else if (c >= ' ' && c < DELETE && end - first < RING - 1) {
        typed[end++ % RING] = c;
        put(c);
    }
}

/* The terminal's interrupt stays until its queue is empty. */
void console_receive(void)
{
    while (TERMINAL_STATUS & STATUS_RECEIVED)
        take_typed_byte(TERMINAL_DATA);
    if (TERMINAL_STATUS & STATUS_OVERRUN) {
        TERMINAL_STATUS = 0;
        say("typed too fast: something is lost\n");
    }
}

/* The length of the first line, with a 0 for its line feed; FAILED where none is whole. */
uint32_t console_take_line(char *line, uint32_t size)
{
    if (line_begin == first)
        return FAILED;
    uint32_t length = 0;
    for (char c; (c = typed[first++ % RING]) != '\n';)
        if (length + 1 < size)
            line[length++] = c;
    line[length] = 0;
    return length;
}

void console_write(const char *text, uint32_t length)
{
    if (writer != current)
        fresh_line();
    writer = current;
    for (uint32_t i = 0; i < length; i++)
        put(text[i]);
}

/* What the kernel itself has to say. */
void say(const char *pattern, ...)
{
    char line[128];
    va_list values;
    va_start(values, pattern);
    uint32_t length = format(line, sizeof line, pattern, values);
    va_end(values);
    console_write(line, length);
}
