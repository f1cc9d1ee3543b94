/* The file system: texts that stand in the kernel's image, one table of where each is. */
#include "kernel.h"

struct file {
    const char *name;
    const char *begin, *end;
};

/* files.s */
extern const struct file files[], files_end[];

const char *file_name(uint32_t index)
{
    return index < (uint32_t)(files_end - files) ? files[index].name : 0;
}

static bool is_same(const char *a, const char *b)
{
    while (*a && *a == *b)
        a++, b++;
    return *a == *b;
}

/* Where a file's bytes stand from an offset on, and how many these are; FAILED where there is no such file. */
uint32_t file_read(const char *name, uint32_t offset, const char **bytes)
{
    for (const struct file *file = files; file < files_end; file++)
        if (is_same(name, file->name)) {
            uint32_t length = file->end - file->begin;
            uint32_t from = offset < length ? offset : length;
            *bytes = file->begin + from;
            return length - from;
        }
    return FAILED;
}
