/* The check of a file system. */
#ifndef CHECK_H
#define CHECK_H
#include "volume.h"

enum status check(uint32_t blocks);

#endif
