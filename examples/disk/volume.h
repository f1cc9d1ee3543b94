/* A disk as a file system: the superblock, the table and the directory. */
#ifndef VOLUME_H
#define VOLUME_H
#include <stdbool.h>
#include <stdint.h>
#include "disk.h"

enum { SUPERBLOCK = 0, TABLE = 1, MAGIC = 0x46494C45 };

/* What the table says of a block, where it does not say which block of the file comes next. */
enum { FREE = 0, SYSTEM = 0xFFFE, LAST = 0xFFFF };

enum status {
    DONE, DISK_REFUSES, DISK_TOO_SMALL, DISK_FULL, NOT_FORMATTED, NOT_SOUND, DIRECTORY_FULL, NO_FILE, FILE_THERE,
    FILE_BROKEN, BAD_NAME, BAD_NUMBER, BAD_COMMAND,
};

struct volume {
    bool is_open;
    bool is_sound;              /* else it is only read */
    uint32_t blocks;            /* of the disk */
    uint32_t directory_at;      /* the block behind the table */
    uint32_t data;              /* the first block that files can have */
    union block directory;
};

extern struct volume volume;

enum status volume_format(uint32_t blocks);
enum status volume_open(uint32_t blocks);
enum status directory_write(void);
enum status table_get(uint32_t block, uint32_t *entry);
enum status table_set(uint32_t block, uint32_t entry);

#endif
