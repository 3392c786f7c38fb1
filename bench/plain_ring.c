#include "plain_ring.h"

#include "bytes.h"
#include "plain_layout.h"
#include "plain_packets.h"

#include <string.h>

/* Where the ring lies in the lent bytes, which are the whole region or not: check 6. */
static inline uint32_t ring_in(const struct plain_layout *layout, uint32_t alignment, uint32_t own_index, uint8_t *region,
                               int whole, struct ring *ring)
{
    ring->read_index = region + layout->ring_offset;
    ring->write_index = ring->read_index + alignment;
    ring->data = ring->write_index + 4;
    ring->data_length = layout->data_length;
    return !whole || own_index >= ring->data_length || own_index % 4 ? 6 : 0;
}

/* Checks 1 to 4, then 6. */
static uint32_t open_ring(uint32_t begin, uint32_t end, uint32_t local_blocks, uint32_t remote_blocks, uint32_t alignment,
                          uint32_t own_index, uint8_t *region, size_t region_length, struct ring *ring)
{
    struct plain_layout layout;
    uint32_t number = plain_layout(begin, end, local_blocks, remote_blocks, alignment, &layout);
    if (number)
        return number;
    return ring_in(&layout, alignment, own_index, region, region_length == end - begin, ring);
}

/* Checks 1, 3 and 4, then 6. */
static uint32_t open_unit(uint32_t begin, uint32_t end, uint32_t alignment, uint32_t own_index, uint8_t *region,
                          size_t region_length, struct ring *ring)
{
    struct plain_layout layout;
    uint32_t number = plain_unit_layout(begin, end, alignment, &layout);
    if (number)
        return number;
    return ring_in(&layout, alignment, own_index, region, region_length == end - begin, ring);
}

static uint32_t give(uint32_t number, uint32_t length, uint32_t own_index, uint32_t dropped, uint32_t *answer, size_t answer_length)
{
    if (answer_length > 0)
        answer[0] = length;
    if (answer_length > 1)
        answer[1] = own_index;
    if (answer_length > 2)
        answer[2] = dropped;
    return number;
}

/* The calls, on a ring that was opened with this number. */

static inline uint32_t start(uint32_t number, const struct ring *ring, uint32_t *answer, size_t answer_length)
{
    static const uint8_t content[13] = {0x45, 0x6d, 0x31, 0x6c, 0x31, 0x4b, 0x30, 0x72, 0x6e, 0x33, 0x6c, 0x69, 0x34};
    if (number)
        return give(number, 0, 0, 0, answer, answer_length);
    if (packet_length(sizeof content) > ring->data_length - 1)
        return give(10, 0, 0, 0, answer, answer_length);
    store(ring->read_index, 0);
    store(ring->write_index, 0);
    return give(0, sizeof content, put(ring, 0, content, sizeof content), 0, answer, answer_length);
}

static inline uint32_t push(uint32_t number, const struct ring *ring, uint32_t own_index, const uint8_t *content,
                            size_t content_length, uint32_t *answer, size_t answer_length)
{
    if (number)
        return give(number, 0, own_index, 0, answer, answer_length);
    if (content_length > 65535)
        return give(11, 0, own_index, 0, answer, answer_length);
    uint32_t k = (uint32_t)content_length;
    number = no_room(ring, own_index, k);
    if (number)
        return give(number, 0, own_index, 0, answer, answer_length);
    return give(0, k, put(ring, own_index, content, k), 0, answer, answer_length);
}

/* A look at the next packet for the length of its content: checks 7, 8 and 9, which drops all that is unread. */
static inline uint32_t look(uint32_t number, const struct ring *ring, uint32_t *own_index, uint32_t *k, uint32_t *dropped)
{
    if (number)
        return number;
    uint32_t write = load(ring->write_index);
    if (write >= ring->data_length || write % 4)
        return 7;
    if (write == *own_index)
        return 8;
    const uint8_t *head = ring->data + *own_index;
    *k = (uint32_t)head[0] << 8 | head[1];
    uint32_t unread = used(ring, *own_index, write);
    if (packet_length(*k) <= unread)
        return 0;
    store(ring->read_index, write);
    *own_index = write;
    *dropped = unread;
    return 9;
}

/* Copies the first n bytes of a content of k, writes the index behind the packet out, and gives that index. */
static inline uint32_t take(const struct ring *ring, uint32_t own_index, uint8_t *buffer, uint32_t n, uint32_t k)
{
    uint32_t at = moved(ring, own_index, 4);
    uint32_t straight = ring->data_length - at;
    if (n <= straight) {
        memcpy(buffer, ring->data + at, n);
    } else {
        memcpy(buffer, ring->data + at, straight);
        memcpy(buffer + straight, ring->data, n - straight);
    }
    own_index = moved(ring, own_index, packet_length(k));
    store(ring->read_index, own_index);
    return own_index;
}

uint32_t plain_start(uint32_t begin, uint32_t end, uint32_t local_blocks, uint32_t remote_blocks, uint32_t alignment, uint8_t *region,
                     size_t region_length, uint32_t *answer, size_t answer_length)
{
    struct ring ring;
    uint32_t number = open_ring(begin, end, local_blocks, remote_blocks, alignment, 0, region, region_length, &ring);
    return start(number, &ring, answer, answer_length);
}

uint32_t plain_push(uint32_t begin, uint32_t end, uint32_t local_blocks, uint32_t remote_blocks, uint32_t alignment, uint32_t own_index,
                    uint8_t *region, size_t region_length, const uint8_t *content, size_t content_length,
                    uint32_t *answer, size_t answer_length)
{
    struct ring ring;
    uint32_t number = open_ring(begin, end, local_blocks, remote_blocks, alignment, own_index, region, region_length, &ring);
    return push(number, &ring, own_index, content, content_length, answer, answer_length);
}

uint32_t plain_pull(uint32_t begin, uint32_t end, uint32_t local_blocks, uint32_t remote_blocks, uint32_t alignment, uint32_t own_index,
                    uint8_t *region, size_t region_length, uint8_t *buffer, size_t buffer_length, uint32_t *answer,
                    size_t answer_length)
{
    struct ring ring;
    uint32_t k, dropped = 0;
    uint32_t number = open_ring(begin, end, local_blocks, remote_blocks, alignment, own_index, region, region_length, &ring);
    number = look(number, &ring, &own_index, &k, &dropped);
    if (number)
        return give(number, 0, own_index, dropped, answer, answer_length);
    uint32_t n = k < buffer_length ? k : (uint32_t)buffer_length;
    return give(0, k, take(&ring, own_index, buffer, n, k), 0, answer, answer_length);
}

uint32_t plain_unit_start(uint32_t begin, uint32_t end, uint32_t alignment, uint8_t *region, size_t region_length,
                          uint32_t *answer, size_t answer_length)
{
    struct ring ring;
    uint32_t number = open_unit(begin, end, alignment, 0, region, region_length, &ring);
    return start(number, &ring, answer, answer_length);
}

uint32_t plain_unit_push(uint32_t begin, uint32_t end, uint32_t alignment, uint32_t own_index, uint8_t *region,
                         size_t region_length, const uint8_t *content, size_t content_length, uint32_t *answer,
                         size_t answer_length)
{
    struct ring ring;
    uint32_t number = open_unit(begin, end, alignment, own_index, region, region_length, &ring);
    return push(number, &ring, own_index, content, content_length, answer, answer_length);
}

uint32_t plain_unit_receive(uint32_t begin, uint32_t end, uint32_t alignment, uint32_t own_index, uint8_t *region,
                            size_t region_length, uint8_t *buffer, size_t buffer_length, uint32_t *answer,
                            size_t answer_length)
{
    struct ring ring;
    uint32_t k, dropped = 0;
    uint32_t number = open_unit(begin, end, alignment, own_index, region, region_length, &ring);
    number = look(number, &ring, &own_index, &k, &dropped);
    if (!number && k > buffer_length)
        number = 26;
    if (number)
        return give(number, 0, own_index, dropped, answer, answer_length);
    return give(0, k, take(&ring, own_index, buffer, k, k), 0, answer, answer_length);
}
