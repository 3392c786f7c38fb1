/* Packets on a ring in plain C, for the plain ring and the plain end. */
#ifndef PLAIN_PACKETS_H
#define PLAIN_PACKETS_H

#include "bytes.h"

#include <stdint.h>
#include <string.h>

struct ring {
    uint8_t *read_index;
    uint8_t *write_index;
    uint8_t *data;
    uint32_t data_length;
};

static inline uint32_t used(const struct ring *ring, uint32_t read, uint32_t write)
{
    return write >= read ? write - read : write + ring->data_length - read;
}

static inline uint32_t moved(const struct ring *ring, uint32_t index, uint32_t bytes)
{
    index += bytes;
    return index < ring->data_length ? index : index - ring->data_length;
}

static inline uint32_t packet_length(uint32_t content)
{
    return 4 + ((content + 3) & ~(uint32_t)3);
}

/* Checks 7 and 10 of a packet with k bytes of content. The partner's index is read here and nowhere again. */
static inline uint32_t no_room(const struct ring *ring, uint32_t own_index, uint32_t k)
{
    uint32_t read = load(ring->read_index);
    if (read >= ring->data_length || read % 4)
        return 7;
    return packet_length(k) + used(ring, read, own_index) > ring->data_length - 1 ? 10 : 0;
}

/* Puts the packet, writes the index behind it out, and gives that index. */
static inline uint32_t put(const struct ring *ring, uint32_t own_index, const uint8_t *content, uint32_t k)
{
    uint32_t whole = packet_length(k);
    uint32_t at = moved(ring, own_index, 4);
    uint32_t straight = ring->data_length - at;
    store(ring->data + moved(ring, own_index, whole - 4), 0);   /* the padding is what the content leaves of it */
    store(ring->data + own_index, (k >> 8) | (k & 0xFF) << 8); /* the length, big-endian, and two zeros */
    if (k <= straight) {
        memcpy(ring->data + at, content, k);
    } else {
        memcpy(ring->data + at, content, straight);
        memcpy(ring->data, content + straight, k - straight);
    }
    own_index = moved(ring, own_index, whole);
    store(ring->write_index, own_index);
    return own_index;
}

#endif
