/* The check. It opens the file system and follows the blocks of each file. A block that two files have, or a file that
   does not have its blocks, is damage: nothing is written then, and the file system is only read until it is made anew.
   What a machine leaves that is switched off in the middle of a change is not damage, and is mended. */
#include "../c/memory.h"
#include "check.h"
#include "files.h"
#include "terminal.h"

static uint8_t taken[MOST_BLOCKS / 8];          /* a bit for each block: a file has it */
static uint32_t lasts[FILES];   /* the last block of each file, 0 where it has none */
static uint32_t files, blocks_taken, damages, mended;

static bool is_taken(uint32_t block)
{
    return taken[block / 8] >> block % 8 & 1;
}

static void take(uint32_t block)
{
    taken[block / 8] |= (uint8_t)(1 << block % 8);
    blocks_taken++;
}

static void damage(const char *name, const char *what, uint32_t block)
{
    print("check: %s %s %u\n", name, what, block);
    damages++;
}

static enum status check_table(void)
{
    for (uint32_t block = 0; block < volume.data; block++) {
        uint32_t entry;
        enum status status = table_get(block, &entry);
        if (status != DONE)
            return status;
        if (entry != SYSTEM)
            damage("the table", "gives away block", block);
    }
    return DONE;
}

/* Takes the blocks that a file needs; what the table says of the last of them does not count. */
static enum status check_blocks(const struct file *file, uint32_t *last)
{
    uint32_t block = file->first;
    for (uint32_t left = blocks_for(file->size); left > 0; left--) {
        if (block < volume.data || block >= volume.blocks) {
            damage(file->name, "leads to block", block);
            return DONE;
        }
        if (is_taken(block)) {
            damage(file->name, "shares block", block);
            return DONE;
        }
        take(block);
        *last = block;
        enum status status = table_get(block, &block);
        if (status != DONE)
            return status;
    }
    return DONE;
}

static enum status check_files(void)
{
    for (uint32_t i = 0; i < FILES; i++) {
        struct file *file = &volume.directory.files[i];
        lasts[i] = 0;
        if (file->name[0] == 0)
            continue;
        files++;
        if (file->name[NAME_BYTES - 1] != 0) {
            file->name[NAME_BYTES - 1] = 0;
            damage(file->name, "has no end of its name in file", i);
        }
        if (file_find(file->name) != file)
            damage(file->name, "is the name of two files, also of file", i);
        if (file->size == 0 && file->first != 0)
            damage(file->name, "is empty and has block", file->first);
        enum status status = check_blocks(file, &lasts[i]);
        if (status != DONE)
            return status;
    }
    return DONE;
}

static enum status mend(uint32_t block, uint32_t entry)
{
    uint32_t old;
    enum status status = table_get(block, &old);
    if (status != DONE || old == entry)
        return status;
    mended++;
    return table_set(block, entry);
}

/* Each file ends with its last block, and blocks that no file has are free. */
static enum status mend_table(void)
{
    enum status status = DONE;
    for (int i = 0; i < FILES && status == DONE; i++)
        if (lasts[i])
            status = mend(lasts[i], LAST);
    for (uint32_t block = volume.data; block < volume.blocks && status == DONE; block++)
        if (!is_taken(block))
            status = mend(block, FREE);
    return status;
}

enum status check(uint32_t blocks)
{
    memset(taken, 0, sizeof taken);
    files = blocks_taken = damages = mended = 0;
    enum status status = volume_open(blocks);
    if (status == DONE)
        status = check_table();
    if (status == DONE)
        status = check_files();
    if (status == DONE && damages == 0)
        status = mend_table();
    if (status != DONE)
        return status;
    volume.is_sound = damages == 0;
    print("check: files %u, blocks %u, free blocks %u\n", files, blocks_taken,
        volume.blocks - volume.data - blocks_taken);
    if (mended)
        print("check: entries of the table that are mended: %u\n", mended);
    return damages ? NOT_SOUND : DONE;
}
