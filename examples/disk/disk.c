/* The disk. Each call moves all longs of a block or none, so POSITION is 0 between calls. */
#include "board.h"
#include "disk.h"

uint32_t disk_refused;

static bool command(uint32_t number, uint32_t code)
{
    DISK_BLOCK = number;
    DISK_COMMAND = code;
    if (DISK_RESULT == 0)
        return true;
    disk_refused = number;
    return false;
}

bool disk_read(uint32_t number, union block *block)
{
    if (!command(number, DISK_LOAD))
        return false;
    for (int i = 0; i < BLOCK_LONGS; i++)
        block->longs[i] = DISK_DATA;
    return true;
}

bool disk_write(uint32_t number, const union block *block)
{
    for (int i = 0; i < BLOCK_LONGS; i++)
        DISK_DATA = block->longs[i];
    return command(number, DISK_STORE);
}
