/* Files: each has a name, a number of bytes, and as many blocks as these need. */
#ifndef FILES_H
#define FILES_H
#include <stdint.h>
#include "volume.h"

uint32_t blocks_for(uint32_t size);
bool is_same_text(const char *a, const char *b);
struct file *file_find(const char *name);
enum status file_create(const char *name);
enum status file_write(const char *name, const void *bytes, uint32_t length);
enum status file_append(const char *name, const void *bytes, uint32_t length);
enum status file_read(const char *name, uint32_t offset, union block *block, uint32_t *length);
enum status file_remove(const char *name);

#endif
