#include "plain_end.h"

#include "plain_layout.h"

#include <string.h>

static uint32_t lay_out(struct plain_region *region, struct plain_bounds bounds, uint32_t remote_blocks, uint32_t alignment)
{
    struct plain_layout layout;
    uint32_t number = plain_layout(bounds.begin, bounds.end, bounds.block_count, remote_blocks, alignment, &layout);
    if (number)
        return number;
    *region = (struct plain_region){bounds.end - bounds.begin, layout.ring_offset,  layout.data_length,
                                    layout.blocks_offset,      bounds.block_count, layout.block_size};
    return 0;
}

uint32_t plain_open(struct plain_end *end, uint32_t alignment, struct plain_bounds tx, struct plain_bounds rx)
{
    memset(end, 0, sizeof *end);
    struct plain_region out, in;
    uint32_t number = lay_out(&out, tx, rx.block_count, alignment);
    if (!number)
        number = lay_out(&in, rx, tx.block_count, alignment);
    if (number)
        return number;
    if (tx.begin < rx.end && rx.begin < tx.end)
        return 5;
    end->open = true;
    end->initiator = rx.begin < tx.begin;
    end->alignment = alignment;
    end->tx = out;
    end->rx = in;
    return 0;
}
