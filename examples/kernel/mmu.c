/* Translation. The kernel's own space maps each page of memory to itself; each process has a space of its own, with the
   program from 4 MiB on and the stack below 8 MiB. A change of a descriptor is followed by a flush of its page, since
   the processor goes on with what it kept. */
#include "kernel.h"

/* Bits of descriptors. */
enum {
    TABLE = 2, RESIDENT = 1, WRITE_PROTECTED = 4, SUPERVISOR_ONLY = 0x80, GLOBAL = 0x400,
    FRAME = ~(PAGE - 1),
};

enum { STACK_BEGIN = SPACE_SIZE - 16 * PAGE };

/* Of control registers: translation is on; addresses $FFxxxxxx of the supervisor are not translated. */
enum { TRANSLATE = 0x8000 };
#define DEVICES 0xFF00A040

/* What the image of the program begins with; the linker wrote it. */
struct header {
    uint32_t start, data, data_end, variables_end;
};

static struct space kernel_space;
static const struct header *const header = (const struct header *)user_image;

/* The pages that a process may have: those of the program, and behind a gap those of the stack. */
static uint32_t first_page(void)
{
    return header->start & FRAME;
}

static uint32_t page_behind(uint32_t at)
{
    bool is_gap = at + PAGE >= header->variables_end && at + PAGE < STACK_BEGIN;
    return is_gap ? STACK_BEGIN : at + PAGE;
}

/* Tables without pages. */
static void connect(struct space *space)
{
    enum { PAGES_IN_TABLE = 64 };
    space->root[0] = (uint32_t)space->pointer | TABLE;
    for (uint32_t i = 0; i < PAGES / PAGES_IN_TABLE; i++)
        space->pointer[i] = (uint32_t)&space->page[i * PAGES_IN_TABLE] | TABLE;
}

/* Every change of a process's descriptor is made here. */
static void set_page(struct space *space, uint32_t address, uint32_t descriptor)
{
    space->page[address / PAGE] = descriptor;
    asm volatile("pflush (%0)" : : "a"(address) : "memory");
}

/* The kernel's pages are global: they are the same whichever process runs, and outlive the flushes between. The
   devices need no table, for a transparent register has all addresses from $FF000000 on. */
void mmu_begin(uint32_t memory_size)
{
    connect(&kernel_space);
    for (uint32_t at = 0; at < memory_size; at += PAGE) {
        uint32_t protection = at < (uint32_t)kernel_data ? WRITE_PROTECTED : 0;
        kernel_space.page[at / PAGE] = at | protection | SUPERVISOR_ONLY | GLOBAL | RESIDENT;
    }
    asm volatile("movec %0, %%dtt0" : : "d"(DEVICES));
    asm volatile("movec %0, %%srp" : : "d"(&kernel_space));
    asm volatile("movec %0, %%urp" : : "d"(&kernel_space));
    asm volatile("pflusha");
    asm volatile("movec %0, %%tc" : : "d"(TRANSLATE) : "memory");
}

/* The space of a process that has just the program. Its pages stay where the kernel's image has them. */
void space_begin(struct space *space)
{
    connect(space);
    uint32_t frame = (uint32_t)user_image;
    for (uint32_t at = first_page(); at < header->data_end; at += PAGE, frame += PAGE) {
        frame_share(frame);
        set_page(space, at, frame | WRITE_PROTECTED | RESIDENT);
    }
}

/* Lets the user's addresses be those of a space. What was kept of the last one's is flushed, but not what is global. */
void space_enter(struct space *space)
{
    asm volatile("movec %0, %%urp" : : "d"(space));
    asm volatile("pflushan" : : : "memory");
}

/* The child has the frames of its parent, and neither may write them until it has a copy. */
void space_fork(struct space *child, struct space *parent)
{
    connect(child);
    for (uint32_t at = first_page(); at < SPACE_SIZE; at = page_behind(at)) {
        uint32_t descriptor = parent->page[at / PAGE];
        if (!(descriptor & RESIDENT))
            continue;
        frame_share(descriptor & FRAME);
        set_page(parent, at, descriptor | WRITE_PROTECTED);
        set_page(child, at, descriptor | WRITE_PROTECTED);
    }
}

void space_end(struct space *space)
{
    for (uint32_t at = first_page(); at < SPACE_SIZE; at = page_behind(at))
        if (space->page[at / PAGE] & RESIDENT) {
            frame_drop(space->page[at / PAGE] & FRAME);
            set_page(space, at, 0);
        }
}

/* Copies a page that is shared; one that nobody else has any longer is only made writable. */
static bool make_writable(struct space *space, uint32_t address, uint32_t frame)
{
    uint32_t own = frame;
    if (frame_is_shared(frame)) {
        own = frame_take();
        if (own == 0)
            return false;
        copy_page(own, frame);
        frame_drop(frame);
        counts.pages_copied++;
    } else {
        counts.pages_unshared++;
    }
    set_page(space, address, own | RESIDENT);
    return true;
}

/* Gives a page of zeros. */
static bool give_page(struct space *space, uint32_t address)
{
    uint32_t frame = frame_take();
    if (frame == 0)
        return false;
    clear_page(frame);
    set_page(space, address, frame | RESIDENT);
    counts.pages_given++;
    return true;
}

/* Makes an access possible that was refused; false where the process has no right to it. */
bool space_repair(struct space *space, uint32_t address, bool write)
{
    bool is_data = address >= header->data && address < header->variables_end;
    bool is_stack = address >= STACK_BEGIN && address < SPACE_SIZE;
    if (!is_data && !is_stack)
        return false;
    uint32_t descriptor = space->page[address / PAGE];
    if (!(descriptor & RESIDENT))
        return give_page(space, address);
    return write && (descriptor & WRITE_PROTECTED) && make_writable(space, address, descriptor & FRAME);
}
