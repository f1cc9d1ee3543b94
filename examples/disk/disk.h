/* The disk, a block at a time, and what its blocks hold. Numbers have their highest byte first, as in memory. */
#ifndef DISK_H
#define DISK_H
#include <stdbool.h>
#include <stdint.h>

enum { BLOCK_BYTES = 512, BLOCK_WORDS = 256, BLOCK_LONGS = 128, MOST_BLOCKS = 32768 };
enum { FILES = 16, NAME_BYTES = 24 };

/* Block 0. Behind it stand the table, a word for each block of the disk, and the directory, one block. */
struct superblock {
    uint32_t magic;
    uint32_t blocks;            /* of the disk */
};

struct file {
    char name[NAME_BYTES];      /* with a 0 behind it; empty where there is no file */
    uint32_t size;              /* in bytes */
    uint32_t first;             /* its first block, 0 where it has none */
};

union block {
    uint8_t bytes[BLOCK_BYTES];
    uint16_t words[BLOCK_WORDS];
    uint32_t longs[BLOCK_LONGS];
    struct superblock superblock;
    struct file files[FILES];
};

extern uint32_t disk_refused;   /* the block of the last command that the disk refused */

bool disk_read(uint32_t number, union block *block);
bool disk_write(uint32_t number, const union block *block);

#endif
