/* The layout of a region in plain C, with blocks and without, for the plain ring and the plain end. */
#ifndef PLAIN_LAYOUT_H
#define PLAIN_LAYOUT_H

#include <stdint.h>

/* Where ring and blocks lie, counted from the region's begin. */
struct plain_layout {
    uint32_t ring_offset;
    uint32_t data_length;
    uint32_t blocks_offset;
    uint32_t block_size;
};

static inline int plain_is_alignment(uint32_t alignment)
{
    return alignment >= 4 && alignment <= 256 && !(alignment & (alignment - 1));
}

static inline int plain_are_bounds(uint32_t begin, uint32_t end)
{
    return begin < end && end - begin <= 1048576;
}

static inline uint64_t plain_round_up(uint32_t begin, uint32_t alignment)
{
    return ((uint64_t)begin + alignment - 1) & ~(uint64_t)(alignment - 1);
}

static inline uint64_t plain_round_down(uint32_t end, uint32_t alignment)
{
    return end & ~(uint64_t)(alignment - 1);
}

/* Checks 1 to 4. */
static inline uint32_t plain_layout(uint32_t begin, uint32_t end, uint32_t local_blocks, uint32_t remote_blocks,
                                    uint32_t alignment, struct plain_layout *layout)
{
    if (!plain_is_alignment(alignment))
        return 1;
    if (local_blocks < 1 || local_blocks > 256 || remote_blocks < 1 || remote_blocks > 256)
        return 2;
    if (!plain_are_bounds(begin, end))
        return 3;
    uint64_t first = plain_round_up(begin, alignment);
    uint64_t last = plain_round_down(end, alignment);
    uint64_t minimum = alignment + 4 + 8 * (local_blocks + remote_blocks + 2);
    if (last < first + minimum)
        return 4;
    uint32_t block_size = (uint32_t)(last - first - minimum) / local_blocks & ~(alignment - 1);
    if (block_size == 0)
        return 4;
    layout->ring_offset = (uint32_t)(first - begin);
    layout->data_length = (uint32_t)(last - first) - local_blocks * block_size - (alignment + 4);
    layout->blocks_offset = (uint32_t)(last - begin) - local_blocks * block_size;
    layout->block_size = block_size;
    return 0;
}

/* The layout of a plain unit's region, which is all ring: checks 1, 3 and 4. Its blocks have no bytes, at its end. */
static inline uint32_t plain_unit_layout(uint32_t begin, uint32_t end, uint32_t alignment, struct plain_layout *layout)
{
    if (!plain_is_alignment(alignment))
        return 1;
    if (!plain_are_bounds(begin, end))
        return 3;
    uint64_t first = plain_round_up(begin, alignment);
    uint64_t last = plain_round_down(end, alignment);
    if (last < first + alignment + 4 + 24)
        return 4;
    layout->ring_offset = (uint32_t)(first - begin);
    layout->data_length = (uint32_t)(last - first) - (alignment + 4);
    layout->blocks_offset = (uint32_t)(last - begin);
    layout->block_size = 0;
    return 0;
}

#endif
