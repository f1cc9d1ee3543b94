/* The superblock, the table and the directory. The directory and one block of the table are held in memory; what
   changes is written at once. */
#include "../c/memory.h"
#include "volume.h"

struct volume volume;

static union block table;
static uint32_t table_at;       /* the block of the table that is held, 0 for none */

static void lay_out(uint32_t blocks)
{
    volume.is_open = false;
    volume.is_sound = false;
    volume.blocks = blocks;
    volume.directory_at = TABLE + (blocks + BLOCK_WORDS - 1) / BLOCK_WORDS;
    volume.data = volume.directory_at + 1;
    table_at = 0;
}

static bool write_tables(void)
{
    memset(&table, 0, sizeof table);
    for (uint32_t at = TABLE; at < volume.directory_at; at++) {
        for (uint32_t i = 0; i < BLOCK_WORDS; i++)
            table.words[i] = (at - TABLE) * BLOCK_WORDS + i < volume.data ? SYSTEM : FREE;
        if (!disk_write(at, &table))
            return false;
    }
    return true;
}

/* Makes an empty file system. The superblock comes last: without it there is none. */
enum status volume_format(uint32_t blocks)
{
    static union block superblock;
    lay_out(blocks);
    if (volume.data >= blocks)
        return DISK_TOO_SMALL;
    memset(&superblock, 0, sizeof superblock);
    memset(&volume.directory, 0, sizeof volume.directory);
    if (!disk_write(SUPERBLOCK, &superblock) || !write_tables() || !disk_write(volume.directory_at, &volume.directory))
        return DISK_REFUSES;
    superblock.superblock.magic = MAGIC;
    superblock.superblock.blocks = blocks;
    if (!disk_write(SUPERBLOCK, &superblock))
        return DISK_REFUSES;
    volume.is_open = true;
    volume.is_sound = true;
    return DONE;
}

/* Opens the file system that is there. The check says then whether it is sound. */
enum status volume_open(uint32_t blocks)
{
    lay_out(blocks);
    if (!disk_read(SUPERBLOCK, &table))
        return DISK_REFUSES;
    if (table.superblock.magic != MAGIC || table.superblock.blocks != blocks || volume.data >= blocks)
        return NOT_FORMATTED;
    if (!disk_read(volume.directory_at, &volume.directory))
        return DISK_REFUSES;
    volume.is_open = true;
    return DONE;
}

/* Where the disk refuses the directory, it is no longer what is held of it. */
enum status directory_write(void)
{
    if (disk_write(volume.directory_at, &volume.directory))
        return DONE;
    volume.is_open = false;
    return DISK_REFUSES;
}

static bool hold_table_of(uint32_t block)
{
    uint32_t at = TABLE + block / BLOCK_WORDS;
    if (at == table_at)
        return true;
    table_at = 0;
    if (!disk_read(at, &table))
        return false;
    table_at = at;
    return true;
}

enum status table_get(uint32_t block, uint32_t *entry)
{
    if (!hold_table_of(block))
        return DISK_REFUSES;
    *entry = table.words[block % BLOCK_WORDS];
    return DONE;
}

enum status table_set(uint32_t block, uint32_t entry)
{
    if (!hold_table_of(block))
        return DISK_REFUSES;
    table.words[block % BLOCK_WORDS] = (uint16_t)entry;
    if (disk_write(table_at, &table))
        return DONE;
    table_at = 0;
    return DISK_REFUSES;
}
