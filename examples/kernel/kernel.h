/* What the parts of the kernel have of each other. */
#ifndef KERNEL_H
#define KERNEL_H
#include <stdbool.h>
#include <stdint.h>
#include "calls.h"

enum { PAGE = 4096, SPACE_SIZE = 8 << 20, PAGES = SPACE_SIZE / PAGE };

/* A process's context stands on its kernel stack: the registers that trap.s saves, and above them the frame that the
   processor stacked at the exception. There is no padding, for longs are aligned to two bytes on this processor. */
struct context {
    uint32_t user_stack;
    uint32_t d[8];
    uint32_t a[7];
    uint16_t status;
    uint32_t program_counter;
    uint16_t format_and_offset;
    /* What follows is there in a frame of format 7 alone, that of an access error. */
    uint32_t effective_address;
    uint16_t special_status;
    uint16_t writeback_3_status, writeback_2_status, writeback_1_status;
    uint32_t fault_address;
    uint32_t writeback_3_address, writeback_3_data;
    uint32_t writeback_2_address, writeback_2_data;
    uint32_t writeback_1_address;
    uint32_t line[4];           /* the first is writeback 1's data too */
};

enum { STATUS_SUPERVISOR = 0x2000 };

/* Translation tables for 8 MiB: a root, one pointer table, and 32 page tables one behind the other. */
struct space {
    uint32_t root[128];
    uint32_t pointer[128];
    uint32_t page[PAGES];
} __attribute__((aligned(512)));

enum state { FREE, READY, SLEEPING, READING };

struct process {
    struct space space;
    enum state state;
    uint32_t wake_tick;
    struct context *context;    /* how it goes on, while another runs */
    uint8_t stack[PAGE];        /* its kernel stack */
};

extern struct counts counts;

/* boot.s and the linker */
extern char kernel_data[], kernel_end[], user_image[], user_image_end[];
void idle(void);

/* memory.s */
void copy_page(uint32_t to, uint32_t from);
void clear_page(uint32_t at);
void copy_from_user(void *to, uint32_t from, uint32_t length);
void copy_to_user(uint32_t to, const void *from, uint32_t length);
void store_user_byte(uint32_t at, uint32_t value);
void store_user_word(uint32_t at, uint32_t value);
void store_user_long(uint32_t at, uint32_t value);

/* frames.c */
void frames_begin(uint32_t memory_size);
uint32_t frame_take(void);
void frame_share(uint32_t frame);
void frame_drop(uint32_t frame);
bool frame_is_shared(uint32_t frame);

/* mmu.c */
void mmu_begin(uint32_t memory_size);
void space_begin(struct space *space);
void space_enter(struct space *space);
void space_fork(struct space *child, struct space *parent);
void space_end(struct space *space);
bool space_repair(struct space *space, uint32_t address, bool write);

/* access.c */
void access_error(struct context *context);

/* process.c */
extern struct process *current;
void processes_begin(void);
uint32_t process_number(void);
uint32_t process_fork(const struct context *context);
void process_end(void);
void process_sleep(uint32_t ticks);
void process_wait_for_line(void);
void processes_tick(void);
void processes_have_line(void);
struct context *process_next(struct context *context);

/* call.c */
void system_call(struct context *context);
void halt(void);

/* console.c */
void console_begin(void);
void console_receive(void);
void console_write(const char *text, uint32_t length);
uint32_t console_take_line(char *line, uint32_t size);
void console_prompt(void);
void say(const char *pattern, ...);

/* files.c */
const char *file_name(uint32_t index);
uint32_t file_read(const char *name, uint32_t offset, const char **bytes);

/* format.c */
#include <stdarg.h>
uint32_t format(char *line, uint32_t size, const char *pattern, va_list values);

#endif
