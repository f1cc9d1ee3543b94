/* What every exception and interrupt comes to. */
#include "board.h"
#include "kernel.h"

enum vector { ACCESS_ERROR = 2, TERMINAL = 24 + 4, TIMER = 24 + 6, SYSTEM_CALL = 32, VECTORS = 256 };

static const char *const names[VECTORS] = {
    [3] = "an odd program counter",
    [4] = "an illegal instruction",
    [5] = "a division by zero",
    [6] = "a number out of its bounds",
    [7] = "a trap on a condition",
    [8] = "an instruction of the supervisor's",
    [9] = "a trace",
    [10] = "an instruction of line A",
    [11] = "an instruction of line F",
    [14] = "a frame of no format",
};

static void unexpected(struct context *context, unsigned vector)
{
    const char *name = names[vector] ? names[vector] : "a trap without a meaning";
    if (context->status & STATUS_SUPERVISOR) {
        say("the kernel met %s at %x\n", name, context->program_counter);
        halt();
    }
    say("process %u met %s at %x, and is ended\n", process_number(), name, context->program_counter);
    process_end();
}

/* Gives the context with which the machine goes on. */
struct context *trap(struct context *context)
{
    enum { ACCESS_FORMAT = 7 };
    unsigned vector = (context->format_and_offset & 0xFFF) / 4;
    switch (vector) {
    case ACCESS_ERROR:
        access_error(context);
        break;
    case TERMINAL:
        console_receive();
        break;
    case TIMER:
        TIMER_ACKNOWLEDGE = 1;
        processes_tick();
        break;
    case SYSTEM_CALL:
        system_call(context);
        break;
    default:
        unexpected(context, vector);
    }
    context = process_next(context);
    counts.returns += context->format_and_offset >> 12 == ACCESS_FORMAT;
    return context;
}
