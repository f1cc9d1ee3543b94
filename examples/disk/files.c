/* Files. What changes is written in such an order that a machine which is switched off between two blocks leaves no
   file without its bytes: a block gets its bytes before the table gives it away, and the table gives it away before the
   directory counts it. At worst blocks are left that no file has, and the check frees them. */
#include "../c/memory.h"
#include "files.h"

uint32_t blocks_for(uint32_t size)
{
    return (size + BLOCK_BYTES - 1) / BLOCK_BYTES;
}

bool is_same_text(const char *a, const char *b)
{
    while (*a && *a == *b) {
        a++;
        b++;
    }
    return *a == *b;
}

struct file *file_find(const char *name)
{
    for (int i = 0; i < FILES; i++)
        if (volume.directory.files[i].name[0] && is_same_text(volume.directory.files[i].name, name))
            return &volume.directory.files[i];
    return 0;
}

/* What stands in the way of a change. */
static enum status if_writable(void)
{
    return !volume.is_open ? NOT_FORMATTED : !volume.is_sound ? NOT_SOUND : DONE;
}

/* ---- blocks */

/* Finds a free block, from the one behind the last that was found on. */
static enum status find_free(uint32_t *found)
{
    static uint32_t last;
    for (uint32_t tried = volume.data; tried < volume.blocks; tried++) {
        uint32_t entry;
        last = last + 1 < volume.data || last + 1 >= volume.blocks ? volume.data : last + 1;
        enum status status = table_get(last, &entry);
        if (status != DONE)
            return status;
        if (entry == FREE) {
            *found = last;
            return DONE;
        }
    }
    return DISK_FULL;
}

/* Puts bytes into a new block, the last of a file to be; nothing leads to it yet. */
static enum status block_make(const uint8_t *bytes, uint32_t length, uint32_t *made)
{
    static union block block;
    enum status status = find_free(made);
    if (status != DONE)
        return status;
    memcpy(block.bytes, bytes, length);
    memset(block.bytes + length, 0, BLOCK_BYTES - length);
    if (!disk_write(*made, &block))
        return DISK_REFUSES;
    return table_set(*made, LAST);
}

/* Frees a block and those behind it. */
static enum status blocks_free(uint32_t block)
{
    while (block != LAST) {
        uint32_t next;
        enum status status = table_get(block, &next);
        if (status == DONE)
            status = table_set(block, FREE);
        if (status != DONE)
            return status;
        block = next;
    }
    return DONE;
}

/* The block of a file in which the byte at an offset stands, which is in the file. Where the file system is not sound
   it may be no block of the disk, and then the disk refuses it. */
static enum status block_at(const struct file *file, uint32_t offset, uint32_t *block)
{
    *block = file->first;
    for (uint32_t left = offset / BLOCK_BYTES; left > 0 && *block < volume.blocks; left--) {
        enum status status = table_get(*block, block);
        if (status != DONE)
            return status;
    }
    return *block < volume.data ? FILE_BROKEN : DONE;
}

/* Puts bytes into the last block of a file, at an offset in that block. */
static enum status block_fill(uint32_t last, uint32_t offset, const uint8_t *bytes, uint32_t length)
{
    static union block block;
    if (!disk_read(last, &block))
        return DISK_REFUSES;
    memcpy(block.bytes + offset, bytes, length);
    return disk_write(last, &block) ? DONE : DISK_REFUSES;
}

/* ---- files */

/* Makes an empty file. */
enum status file_create(const char *name)
{
    uint32_t length = 0;
    while (name[length])
        length++;
    if (length == 0 || length >= NAME_BYTES)
        return BAD_NAME;
    enum status status = if_writable();
    if (status != DONE)
        return status;
    if (file_find(name))
        return FILE_THERE;
    for (int i = 0; i < FILES; i++) {
        struct file *file = &volume.directory.files[i];
        if (file->name[0] == 0) {
            *file = (struct file){.size = 0, .first = 0};
            memcpy(file->name, name, length);
            return directory_write();
        }
    }
    return DIRECTORY_FULL;
}

/* Gives a file other bytes, a block of them at most. It has the old ones until the directory is written. */
enum status file_write(const char *name, const void *bytes, uint32_t length)
{
    enum status status = if_writable();
    if (status != DONE)
        return status;
    struct file *file = file_find(name);
    if (!file)
        return NO_FILE;
    uint32_t made = 0, old = file->first;
    if (length > 0)
        status = block_make(bytes, length, &made);
    if (status != DONE)
        return status;
    file->first = made;
    file->size = length;
    status = directory_write();
    if (status != DONE || old == 0)
        return status;
    return blocks_free(old);
}

/* Puts bytes behind those of a file, a block of them at most: all of them, or none. */
enum status file_append(const char *name, const void *bytes, uint32_t length)
{
    enum status status = if_writable();
    if (status != DONE)
        return status;
    struct file *file = file_find(name);
    if (!file)
        return NO_FILE;
    uint32_t filled = file->size % BLOCK_BYTES;
    uint32_t room = filled ? BLOCK_BYTES - filled : 0;
    uint32_t part = length < room ? length : room;
    uint32_t last = 0, made = 0;
    if (length > part)
        status = block_make((const uint8_t *)bytes + part, length - part, &made);
    if (status == DONE && file->size > 0)
        status = block_at(file, file->size - 1, &last);
    if (status == DONE && part > 0)
        status = block_fill(last, filled, bytes, part);
    if (status == DONE && made && last)
        status = table_set(last, made);
    if (status != DONE)
        return status;
    if (!last)
        file->first = made;
    file->size += length;
    return directory_write();
}

/* Reads the block in which a byte of a file stands, the first of that block, and tells how many of it are the file's: 0
   behind the file's end. */
enum status file_read(const char *name, uint32_t offset, union block *block, uint32_t *length)
{
    uint32_t at;
    *length = 0;
    if (!volume.is_open)
        return NOT_FORMATTED;
    const struct file *file = file_find(name);
    if (!file)
        return NO_FILE;
    if (offset >= file->size)
        return DONE;
    enum status status = block_at(file, offset, &at);
    if (status != DONE)
        return status;
    if (!disk_read(at, block))
        return DISK_REFUSES;
    *length = file->size - offset < BLOCK_BYTES ? file->size - offset : BLOCK_BYTES;
    return DONE;
}

/* Takes a file out of the directory, and then frees its blocks. */
enum status file_remove(const char *name)
{
    enum status status = if_writable();
    if (status != DONE)
        return status;
    struct file *file = file_find(name);
    if (!file)
        return NO_FILE;
    uint32_t first = file->first;
    *file = (struct file){.size = 0, .first = 0};
    status = directory_write();
    if (status != DONE || first == 0)
        return status;
    return blocks_free(first);
}
