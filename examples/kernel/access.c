/* The access error. A read or a fetch that was refused is tried again by RTE: nothing of the instruction was done. A
   write that was refused is not: its instruction is over but for the writes that the frame holds, and those are ours to
   do. A MOVEM goes on by itself at RTE, from the transfer that was refused. */
#include "kernel.h"

/* Of the special status word: a MOVEM is in the middle; the tables refused; a locked instruction, whose read begins a
   write; a read; whose space. */
enum { IN_MOVEM = 0x1000, TABLES_REFUSED = 0x400, LOCKED = 0x200, READ = 0x100, SPACE = 7 };
enum { USER_DATA = 1, USER_CODE = 2 };

/* Of a writeback's status. */
enum { VALID = 0x80, SIZE_SHIFT = 5, LONG = 0, BYTE = 1, WORD = 2, LINE = 3 };

static void store(unsigned size, uint32_t address, uint32_t value)
{
    if (size == LONG)
        store_user_long(address, value);
    else if (size == WORD)
        store_user_word(address, value);
    else
        store_user_byte(address, value);
    counts.writes_completed++;
}

/* A line of MOVE16 stands in four longs. */
static void store_line(uint32_t address, const uint32_t line[4])
{
    for (unsigned i = 0; i < 4; i++)
        store(LONG, (address & ~15u) + 4 * i, line[i]);
}

/* The first writeback's data stand as on the bus, each byte where its address puts it in a long; here they are moved to
   the low end, where those of the others stand. */
static uint32_t from_bus(unsigned size, uint32_t address, uint32_t data)
{
    uint32_t above = data << 8 * (address & 3);
    return size == LONG ? data : size == WORD ? above >> 16 : above >> 24;
}

static void store_piece(uint16_t status, uint32_t address, uint32_t value)
{
    if (status & VALID)
        store(status >> SIZE_SHIFT & 3, address, value);
}

/* The pieces of an operand, in order. A further one may be on a page that is refused too: then this very handler is
   entered again, on the same stack, and comes back. */
static void complete_writes(const struct context *context)
{
    uint16_t status = context->writeback_1_status;
    uint32_t address = context->writeback_1_address;
    unsigned size = status >> SIZE_SHIFT & 3;
    if ((status & VALID) && size == LINE)
        store_line(address, context->line);
    else
        store_piece(status, address, from_bus(size, address, context->line[0]));
    store_piece(context->writeback_2_status, context->writeback_2_address, context->writeback_2_data);
    store_piece(context->writeback_3_status, context->writeback_3_address, context->writeback_3_data);
}

void access_error(struct context *context)
{
    uint16_t special = context->special_status;
    unsigned space = special & SPACE;
    bool write = !(special & READ) || special & LOCKED;
    counts.access_errors++;
    if (space != USER_DATA && space != USER_CODE) {
        say("the kernel may not have %x, at %x\n", context->fault_address, context->program_counter);
        halt();
    }
    if (special & TABLES_REFUSED && space_repair(&current->space, context->fault_address, write)) {
        complete_writes(context);
        counts.moves_continued += (special & IN_MOVEM) != 0;
        return;
    }
    say("process %u may not %s %x, and is ended\n", process_number(), write ? "write" : "read", context->fault_address);
    process_end();
}
