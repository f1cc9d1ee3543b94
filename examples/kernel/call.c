/* System calls. What a program hands over are addresses of its own space, and only the calls of memory.s use them: so a
   wrong one ends the program, never the kernel. */
#include "board.h"
#include "kernel.h"

enum { LINE_SIZE = 128 };

static uint32_t least(uint32_t a, uint32_t b)
{
    return a < b ? a : b;
}

/* Copies a text with its end into the buffer of a program; the length of what was copied. */
static uint32_t give_text(uint32_t buffer, uint32_t size, const char *text)
{
    uint32_t length = 0;
    if (size == 0)
        return 0;
    while (text[length] && length + 1 < size)
        length++;
    copy_to_user(buffer, text, length);
    store_user_byte(buffer + length, 0);
    return length;
}

static uint32_t call_write(struct context *context)
{
    char text[WRITE_MOST];
    uint32_t length = least(context->d[2], WRITE_MOST);
    copy_from_user(text, context->d[1], length);
    console_write(text, length);
    return length;
}

/* Where there is no line yet the call is made again when there is: its instruction has two bytes. */
static uint32_t call_read_line(struct context *context)
{
    char line[LINE_SIZE];
    console_prompt();
    if (console_take_line(line, sizeof line) == FAILED) {
        process_wait_for_line();
        context->program_counter -= 2;
        return CALL_READ_LINE;
    }
    return give_text(context->d[1], context->d[2], line);
}

static uint32_t call_file_name(struct context *context)
{
    const char *name = file_name(context->d[1]);
    return name ? give_text(context->d[2], context->d[3], name) : FAILED;
}

static uint32_t call_file_read(struct context *context)
{
    struct file_part part;
    copy_from_user(&part, context->d[1], sizeof part);
    part.name[NAME_SIZE - 1] = 0;
    const char *bytes;
    uint32_t length = file_read(part.name, part.offset, &bytes);
    if (length == FAILED)
        return FAILED;
    length = least(length, least(part.size, WRITE_MOST));
    copy_to_user((uint32_t)part.buffer, bytes, length);
    return length;
}

void halt(void)
{
    say("off after %u ticks\n", counts.ticks);
    for (;;)
        POWER = 1;
}

/* The answer stands in D0 when the process goes on. */
void system_call(struct context *context)
{
    uint32_t answer = 0;
    counts.calls++;
    switch (context->d[0]) {
    case CALL_EXIT: process_end(); break;
    case CALL_WRITE: answer = call_write(context); break;
    case CALL_READ_LINE: answer = call_read_line(context); break;
    case CALL_SLEEP: process_sleep(context->d[1]); break;
    case CALL_FORK: answer = process_fork(context); break;
    case CALL_FILE_NAME: answer = call_file_name(context); break;
    case CALL_FILE_READ: answer = call_file_read(context); break;
    case CALL_COUNTS: copy_to_user(context->d[1], &counts, sizeof counts); break;
    case CALL_HALT: halt(); break;
    default: answer = FAILED;
    }
    context->d[0] = answer;
}
