/* Processes. Each has a space, and a kernel stack on which its context stands while another runs. Process 0 is the idle
   loop, which runs in the kernel where no other is ready. */
#include <stddef.h>
#include "kernel.h"

enum { PROCESSES = 8, IDLE = 0 };

struct process *current;
static struct process processes[PROCESSES];
static bool slice_is_over;      /* another process may have its turn */

/* Where the context stands on an empty kernel stack, with an exception frame of format 0. */
static struct context *first_context(struct process *process)
{
    return (struct context *)(process->stack + PAGE - offsetof(struct context, effective_address));
}

/* A process that was never in the kernel has a context as if it had been. */
static void begin(struct process *process, uint16_t status, uint32_t program_counter)
{
    process->context = first_context(process);
    process->context->status = status;
    process->context->program_counter = program_counter;
    process->context->format_and_offset = 0;
    process->context->user_stack = SPACE_SIZE;
    process->state = READY;
}

void processes_begin(void)
{
    begin(&processes[IDLE], STATUS_SUPERVISOR, (uint32_t)idle);
    struct process *first = &processes[IDLE + 1];
    space_begin(&first->space);
    begin(first, 0, *(const uint32_t *)user_image);
    current = &processes[IDLE];
}

uint32_t process_number(void)
{
    return current - processes;
}

/* The child goes on behind the same call, with another answer. */
uint32_t process_fork(const struct context *context)
{
    for (uint32_t i = IDLE + 1; i < PROCESSES; i++) {
        struct process *child = &processes[i];
        if (child->state != FREE)
            continue;
        space_fork(&child->space, &current->space);
        begin(child, context->status, context->program_counter);
        child->context->user_stack = context->user_stack;
        for (unsigned n = 0; n < 8; n++)
            child->context->d[n] = context->d[n];
        for (unsigned n = 0; n < 7; n++)
            child->context->a[n] = context->a[n];
        child->context->d[0] = 0;
        return i;
    }
    return FAILED;
}

void process_end(void)
{
    space_end(&current->space);
    current->state = FREE;
}

void process_sleep(uint32_t ticks)
{
    current->wake_tick = counts.ticks + ticks;
    current->state = SLEEPING;
}

void process_wait_for_line(void)
{
    current->state = READING;
}

void processes_tick(void)
{
    counts.ticks++;
    counts.idle_ticks += current == &processes[IDLE];
    slice_is_over = true;
    for (uint32_t i = IDLE + 1; i < PROCESSES; i++)
        if (processes[i].state == SLEEPING && processes[i].wake_tick <= counts.ticks)
            processes[i].state = READY;
}

/* Who waits for a line does not wait for the next tick too. */
void processes_have_line(void)
{
    slice_is_over = true;
    for (uint32_t i = IDLE + 1; i < PROCESSES; i++)
        if (processes[i].state == READING)
            processes[i].state = READY;
}

/* The next process that is ready, in a round; the idle loop where none is. */
static struct process *choose(void)
{
    for (uint32_t i = 1; i <= PROCESSES; i++) {
        uint32_t number = (process_number() + i) % PROCESSES;
        if (number != IDLE && processes[number].state == READY)
            return &processes[number];
    }
    return &processes[IDLE];
}

/* Gives the context to go on with: this one, or another's where this one's time is over or it waits. What interrupted
   the kernel itself goes back there, for the kernel is not preempted; but one that has ended never goes on. */
struct context *process_next(struct context *context)
{
    bool is_idle = current == &processes[IDLE];
    bool may_switch = is_idle || !(context->status & STATUS_SUPERVISOR) || current->state == FREE;
    if (!may_switch || (!is_idle && current->state == READY && !slice_is_over))
        return context;
    slice_is_over = false;
    current->context = context;
    struct process *next = choose();
    if (next != current) {
        counts.preemptions += !is_idle && current->state == READY;
        current = next;
        counts.switches++;
        space_enter(&next->space);
    }
    return current->context;
}
