/* Frames: the pages of memory, and how many owners each has. A frame with more than one must not be written. */
#include "kernel.h"

static uint8_t owners[PAGES];
static uint32_t frames;         /* as many as there is memory */

/* The kernel's own frames have an owner that never drops them, so what a process has of the image is shared. */
void frames_begin(uint32_t memory_size)
{
    frames = memory_size / PAGE;
    for (uint32_t i = 0; i < frames; i++)
        owners[i] = i * PAGE < (uint32_t)kernel_end;
    counts.frames_free = frames - ((uint32_t)kernel_end + PAGE - 1) / PAGE;
}

/* The address of a frame that nobody had; 0, where the vectors are, if there is none. */
uint32_t frame_take(void)
{
    for (uint32_t i = 0; i < frames; i++)
        if (owners[i] == 0) {
            owners[i] = 1;
            counts.frames_free--;
            return i * PAGE;
        }
    say("no frame of memory is free\n");
    return 0;
}

void frame_share(uint32_t frame)
{
    owners[frame / PAGE]++;
}

void frame_drop(uint32_t frame)
{
    if (--owners[frame / PAGE] == 0)
        counts.frames_free++;
}

bool frame_is_shared(uint32_t frame)
{
    return owners[frame / PAGE] > 1;
}
