/* The kernel's beginning. It has no end of its own: from here on it is entered by exceptions and interrupts. */
#include "board.h"
#include "kernel.h"

enum { TICK = 10000 };          /* steps of the machine */

struct counts counts;

struct context *kernel_main(void)
{
    uint32_t size = MEMORY_SIZE;
    if (size > SPACE_SIZE)
        size = SPACE_SIZE;      /* the tables reach no further */
    say("A small kernel for the MC68LC040\n");
    say("%u KiB of memory, %u KiB of it the kernel's; tables for %u MiB; a tick is %u steps\n",
        size >> 10, (uint32_t)kernel_end >> 10, SPACE_SIZE >> 20, TICK);
    frames_begin(size);
    mmu_begin(size);
    processes_begin();
    console_begin();
    TIMER_PERIOD = TICK;
    return process_next(current->context);
}
