/* What the kernel and the programs agree on: TRAP #0 with the number of a call in D0 and what it is told in D1 to D3.
   The answer is in D0. */
#ifndef CALLS_H
#define CALLS_H
#include <stdint.h>

enum call_number {
    CALL_EXIT,        /* the process ends */
    CALL_WRITE,       /* text, length: how many bytes were written, at most WRITE_MOST */
    CALL_READ_LINE,   /* buffer, size: waits for a line, and gives its length without the line feed */
    CALL_SLEEP,       /* ticks */
    CALL_FORK,        /* the child's number to the parent, 0 to the child, FAILED where there is no room */
    CALL_FILE_NAME,   /* index, buffer, size: the length of the name, FAILED behind the last file */
    CALL_FILE_READ,   /* struct file_part: how many bytes were read, FAILED where no file has the name */
    CALL_COUNTS,      /* struct counts: what the kernel has counted */
    CALL_HALT,        /* the machine switches off */
    CALL_NUMBERS
};

#define FAILED 0xFFFFFFFF

/* A call runs to its end before the next interrupt, so none may take long. */
enum { WRITE_MOST = 128, NAME_SIZE = 32 };

struct file_part {
    char name[NAME_SIZE];
    uint32_t offset;
    char *buffer;
    uint32_t size;
};

struct counts {
    uint32_t ticks;
    uint32_t idle_ticks;
    uint32_t switches;
    uint32_t preemptions;      /* switches from a process that wanted to go on */
    uint32_t calls;
    uint32_t access_errors;
    uint32_t returns;          /* from access errors, by RTE of a frame of format 7 */
    uint32_t pages_given;
    uint32_t pages_copied;
    uint32_t pages_unshared;   /* written by the last process that had them, without a copy */
    uint32_t writes_completed; /* pieces of operands */
    uint32_t moves_continued;  /* MOVEMs that were refused in the middle */
    uint32_t frames_free;
};

#endif
