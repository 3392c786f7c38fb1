/* Petrelknob: one end of a two-core link over shared memory (Zephyr ICMsg and ICBMsg). For C99 and C++.
 *
 * Link with libpanel.a (make panel), which is for x86-64 Linux. What to call depends on what the partner speaks:
 *
 * ICBMsg        a region has a ring and blocks, as in a pump box: petrelknob_layout, petrelknob_start, petrelknob_push,
 *               petrelknob_pull, and struct petrelknob_direction. Blocks and endpoints are not for C yet
 * plain ICMsg   the whole region is ring and packets hold the data itself, as with the units of the ladder trucks:
 *               petrelknob_unit_open, petrelknob_unit_start, petrelknob_unit_push, petrelknob_unit_receive, and struct petrelknob_plain
 *
 * They differ where a packet is longer than the buffer: pull cuts it to the buffer and takes it, receive leaves it on the ring and
 * says 26.
 *
 * Sheets, where what is set by hand wins over what comes in, are in petrelknob_sheet.h, and in the same library.
 *
 * There are two ways to call. The struct keeps what belongs to one direction of a link, or to one side of a plain one, and its calls
 * are short: begin there. The functions before it take every number at every call, and keep nothing.
 *
 * The exported functions are proved: each takes any numbers and any slices, ends, and touches nothing but the slices that it is
 * lent. There is no hidden state and nothing to free. The inline functions are a few lines of plain C over them.
 *
 * A slice is a pointer and a number of elements. The pointer may be anything where that number is 0. A lent region has to stand
 * still while a call runs: docs/SHARED-MEMORY.md says what that asks of two cores.
 */
#ifndef PETRELKNOB_H
#define PETRELKNOB_H

#include "petrelknob_numbers.h" /* what the calls return */

#include <stddef.h>
#include <stdint.h>

#ifdef __cplusplus
extern "C" {
#endif

/* ---- layout */

/* Where each value of a layout stands in `answer`. */
enum petrelknob_layout_value {
    PETRELKNOB_BEGIN = 0,        /* address: begin, rounded up to the alignment. The ring's read index is here */
    PETRELKNOB_DATA_LENGTH = 1,  /* the ring's data bytes. They follow the write index, at begin + alignment + 4 */
    PETRELKNOB_BLOCKS_BEGIN = 2, /* address: the first block. Block i is at blocks begin + i * block size */
    PETRELKNOB_BLOCK_SIZE = 3,   /* bytes of each block, a multiple of the alignment */
    PETRELKNOB_END = 4,          /* address: end, rounded down to the alignment. The last block ends here */
    PETRELKNOB_LAYOUT_VALUES = 5
};

/* The layout of one shared-memory region: where its ring and its blocks lie.
 *
 * begin, end      addresses of the region; end is the first byte behind it
 * local_blocks    blocks in this region
 * remote_blocks   blocks in the region of the other direction (the ring must hold messages for both)
 * alignment       cache line: a power of two from 4 to 256
 * answer          gets the five values above, or five zeros where the layout is refused. A shorter answer gets the first
 *                 answer_length of them; elements from the sixth on stay as they are
 *
 * Returns 0, or 1 to 4 by the first check that fails, in that order. Both ends of a link must be given the same numbers for a
 * region, with the two block counts swapped for the other region.
 */
uint32_t petrelknob_layout(uint32_t begin, uint32_t end, uint32_t local_blocks, uint32_t remote_blocks,
                           uint32_t alignment, uint32_t *answer, size_t answer_length);

/* The longest content that a ring with this many data bytes can take when it is empty: data length - 8, at most 65,535. A packet
 * takes 4 bytes and its content padded to a multiple of 4, and one byte of the ring, so four, stay unused. Longer content is
 * refused by 10 for ever, over 65,535 bytes by 11. A partner's packet is never longer: a buffer of as many bytes takes any.
 */
static inline uint32_t petrelknob_largest_content(uint32_t data_length)
{
    if (data_length < 8)
        return 0;
    return data_length - 8 < 65535 ? data_length - 8 : 65535;
}

/* ---- ring */

/* Where each value of a start, a push, a pull or a unit's receive stands in `answer`. */
enum petrelknob_ring_value {
    PETRELKNOB_LENGTH = 0,    /* start: 13; push, receive: the content's length; pull: the packet's whole length; 0 on a refusal */
    PETRELKNOB_OWN_INDEX = 1, /* the own index after the call, to be handed in at the next; on a refusal but 9 as it was, of start 0 */
    PETRELKNOB_DROPPED = 2,   /* pull, receive, on 9: how many unread bytes were dropped; else 0 */
    PETRELKNOB_RING_VALUES = 3
};

/* Starts the ring of a region that this side transmits in: writes both indexes as zero and puts a packet with the start content
 * on it, 13 bytes that tell the partner that the ring can be read. Each side starts its own ring before it pushes, and can
 * count on the partner when it has pulled its start packet, which is the first on a started ring (examples/ring.c).
 *
 * begin .. alignment   the region's numbers, as for its layout
 * region               the whole region, its first byte at address begin
 * answer               gets the three values above: the own index is the write index for the first push. A shorter answer gets the
 *                      first of them; further elements stay
 *
 * Returns 0, or the number of the first check that fails, in the order 1, 2, 3, 4, 6; then no byte of region is changed.
 * A ring that is started again is empty but for the start packet: its reader has to begin again at read index 0, and nothing on
 * the ring tells it to.
 */
uint32_t petrelknob_start(uint32_t begin, uint32_t end, uint32_t local_blocks, uint32_t remote_blocks,
                          uint32_t alignment, uint8_t *region, size_t region_length, uint32_t *answer,
                          size_t answer_length);

/* 1 where the content is exactly the start content, else 0. Of a pulled packet hand in what the buffer has: a packet that was longer
 * than the buffer is no start packet, whatever its first bytes are. */
uint32_t petrelknob_is_start(const uint8_t *content, size_t content_length);

/* Puts one packet on the ring of a region that this side transmits in.
 *
 * own_index            this side's write index: what start answered, then what the last push answered.
 *                      It is kept by the caller and never read back from the region, where the other core could change it
 * content              what to put on the ring; it may be empty. It must not lie inside region or answer
 *
 * All else is as for start. Returns 0, or the number of the first check that fails, in the order 1, 2, 3, 4, 6, 11, 7, 10; then no
 * byte of region is changed. The partner's read index is read once.
 */
uint32_t petrelknob_push(uint32_t begin, uint32_t end, uint32_t local_blocks, uint32_t remote_blocks,
                         uint32_t alignment, uint32_t own_index, uint8_t *region, size_t region_length,
                         const uint8_t *content, size_t content_length, uint32_t *answer, size_t answer_length);

/* Takes the next packet off the ring of a region that this side receives in.
 *
 * own_index            this side's read index: 0 at first, then what the last pull answered
 * buffer               gets the first bytes of the content, as many as fit; its other bytes stay. The packet is gone from the ring
 *                      even where it did not fit: answer[PETRELKNOB_LENGTH] says how long it was
 *
 * All else is as for push. Returns 0, or the number of the first check that fails, in the order 1, 2, 3, 4, 6, 7, 8, 9; then
 * no byte of region and buffer is changed, but for 9. The two slices, and answer, must not overlap.
 *
 * On 9 nobody can tell where the next packet begins, so all unread bytes are dropped, packets behind the broken one too: the own
 * index becomes the partner's write index, and its four bytes in region are written. The length is 0, and
 * answer[PETRELKNOB_DROPPED] says how many bytes went. The next pull is 8, or takes what the partner has pushed since.
 */
uint32_t petrelknob_pull(uint32_t begin, uint32_t end, uint32_t local_blocks, uint32_t remote_blocks,
                         uint32_t alignment, uint32_t own_index, uint8_t *region, size_t region_length,
                         uint8_t *buffer, size_t buffer_length, uint32_t *answer, size_t answer_length);

/* ---- one direction of a link */

/* A region's numbers, as for its layout. */
struct petrelknob_region {
    uint32_t begin, end;
    uint32_t local_blocks, remote_blocks;
    uint32_t alignment;
};

/* One direction of a link, as one side sees it: the side that transmits in the region starts and pushes, the other side pulls. The two
 * sides have a struct each, in memory of their own, so that the partner cannot reach the own index. Open it, then leave its fields to
 * the calls; to read them is fine. */
struct petrelknob_direction {
    struct petrelknob_region region;
    uint8_t *memory;      /* the region's first byte, wherever this side sees it */
    size_t length;        /* bytes there, which must be all of the region */
    uint32_t data_length; /* of the ring; 0 where the layout is refused */
    uint32_t own_index;   /* write index of the side that transmits, read index of the other */
    uint32_t dropped;     /* unread bytes that the last pull dropped: 0, but where it was 9 */
};

/* Makes the direction ready, its own index 0. No byte of memory is read or written. Returns 0, or the first of 1, 2, 3, 4 and 6 that
 * fails; a null pointer counts as no bytes. A direction that is refused stays so: each call on it gives that number again.
 */
static inline uint32_t petrelknob_direction_open(struct petrelknob_direction *direction,
                                                 const struct petrelknob_region *region, void *memory, size_t length)
{
    uint32_t layout[PETRELKNOB_LAYOUT_VALUES];
    uint32_t number = petrelknob_layout(region->begin, region->end, region->local_blocks, region->remote_blocks,
                                        region->alignment, layout, PETRELKNOB_LAYOUT_VALUES);
    direction->region = *region;
    direction->memory = (uint8_t *)memory;
    direction->length = memory ? length : 0;
    direction->data_length = layout[PETRELKNOB_DATA_LENGTH];
    direction->own_index = 0;
    direction->dropped = 0;
    if (number == PETRELKNOB_ACCEPTED && direction->length != region->end - region->begin)
        return PETRELKNOB_WRONG_REGION;
    return number;
}

/* Starts the ring (petrelknob_start). Returns its number; where it is not 0, the own index stays. */
static inline uint32_t petrelknob_direction_start(struct petrelknob_direction *direction)
{
    const struct petrelknob_region *region = &direction->region;
    uint32_t answer[PETRELKNOB_RING_VALUES];
    uint32_t number = petrelknob_start(region->begin, region->end, region->local_blocks, region->remote_blocks,
                                       region->alignment, direction->memory, direction->length, answer,
                                       PETRELKNOB_RING_VALUES);
    if (number == PETRELKNOB_ACCEPTED)
        direction->own_index = answer[PETRELKNOB_OWN_INDEX];
    return number;
}

/* Pushes the content (petrelknob_push). Returns its number; where it is not 0, the own index stays. */
static inline uint32_t petrelknob_direction_push(struct petrelknob_direction *direction, const void *content,
                                                 size_t content_length)
{
    const struct petrelknob_region *region = &direction->region;
    uint32_t answer[PETRELKNOB_RING_VALUES];
    uint32_t number = petrelknob_push(region->begin, region->end, region->local_blocks, region->remote_blocks,
                                      region->alignment, direction->own_index, direction->memory, direction->length,
                                      (const uint8_t *)content, content_length, answer, PETRELKNOB_RING_VALUES);
    if (number == PETRELKNOB_ACCEPTED)
        direction->own_index = answer[PETRELKNOB_OWN_INDEX];
    return number;
}

/* Pulls the next packet (petrelknob_pull). Returns its number; where it is not 0, *length is 0 and the own index stays, but on 9 all
 * that is unread is dropped: direction->dropped says how many bytes, and the next pull goes on behind them.
 *
 * *length gets the packet's whole length. It is above buffer_length where the packet was cut to the buffer; never with a buffer of
 * petrelknob_largest_content(direction->data_length) bytes.
 */
static inline uint32_t petrelknob_direction_pull(struct petrelknob_direction *direction, void *buffer,
                                                 size_t buffer_length, size_t *length)
{
    const struct petrelknob_region *region = &direction->region;
    uint32_t answer[PETRELKNOB_RING_VALUES];
    uint32_t number = petrelknob_pull(region->begin, region->end, region->local_blocks, region->remote_blocks,
                                      region->alignment, direction->own_index, direction->memory, direction->length,
                                      (uint8_t *)buffer, buffer_length, answer, PETRELKNOB_RING_VALUES);
    direction->own_index = answer[PETRELKNOB_OWN_INDEX]; /* as it was, where nothing was taken or dropped */
    direction->dropped = answer[PETRELKNOB_DROPPED];
    *length = answer[PETRELKNOB_LENGTH];
    return number;
}

/* ---- plain units */

/* The data bytes of a plain region's ring: all from begin, rounded up to the alignment, to end, rounded down, but for the alignment + 4
 * bytes of the indexes. A ring has at least 24; 0 is answered where the region is refused, by 1, 3 or 4. */
static inline uint32_t petrelknob_unit_data_length(uint32_t begin, uint32_t end, uint32_t alignment)
{
    uint32_t not_data; /* at most 255 + 255 + 260, so that nothing wraps */
    if (alignment < 4 || alignment > 256 || (alignment & (alignment - 1)) != 0 || begin >= end || end - begin > 1048576)
        return 0;
    not_data = (alignment - begin % alignment) % alignment + end % alignment + alignment + 4;
    return end - begin < not_data + 24 ? 0 : end - begin - not_data;
}

/* Says whether a plain unit can be opened with these numbers: regions to transmit and to receive in, and the alignment of both.
 *
 * Returns 0, or the number of the first check that fails: 1, 3, 4 of the region to transmit in, 1, 3, 4 of the other, then 5 of both,
 * which may touch. No memory is read or written, and nothing is kept. The partner opens with the two regions swapped.
 */
uint32_t petrelknob_unit_open(uint32_t tx_begin, uint32_t tx_end, uint32_t rx_begin, uint32_t rx_end, uint32_t alignment);

/* Starts the ring of a region that this side transmits in, as petrelknob_start does. Returns 0, or the number of the first check that
 * fails, in the order 1, 3, 4, 6; then no byte of region is changed.
 *
 * begin, end, alignment   the region's numbers, as it is opened with
 * region, answer          as for petrelknob_start
 */
uint32_t petrelknob_unit_start(uint32_t begin, uint32_t end, uint32_t alignment, uint8_t *region, size_t region_length,
                               uint32_t *answer, size_t answer_length);

/* Puts one packet on the ring of a region that this side transmits in. All is as for petrelknob_push, but that it returns 0, or the
 * number of the first check that fails, in the order 1, 3, 4, 6, 11, 7, 10. */
uint32_t petrelknob_unit_push(uint32_t begin, uint32_t end, uint32_t alignment, uint32_t own_index, uint8_t *region,
                              size_t region_length, const uint8_t *content, size_t content_length, uint32_t *answer,
                              size_t answer_length);

/* Takes the next packet off the ring of a region that this side receives in, a start packet like any other.
 *
 * own_index            this side's read index: 0 at first, then what the last receive answered
 * buffer               gets the whole content; its other bytes stay. Where it is shorter than the content, the packet stays on the
 *                      ring, which is 26: the same call with a longer buffer takes it
 *
 * Returns 0, or the number of the first check that fails, in the order 1, 3, 4, 6, 7, 8, 9, 26; then no byte of region and buffer is
 * changed, but for 9, which drops all unread bytes as in petrelknob_pull. The two slices, and answer, must not overlap.
 */
uint32_t petrelknob_unit_receive(uint32_t begin, uint32_t end, uint32_t alignment, uint32_t own_index, uint8_t *region,
                                 size_t region_length, uint8_t *buffer, size_t buffer_length, uint32_t *answer,
                                 size_t answer_length);

/* What a plain unit is opened with. */
struct petrelknob_plain_numbers {
    uint32_t tx_begin, tx_end;
    uint32_t rx_begin, rx_end;
    uint32_t alignment;
};

/* One side of a plain link (examples/unit.c), in memory of its own, so that the partner cannot reach the own indexes. Open it, then
 * leave its fields to the calls; to read them is fine. */
struct petrelknob_plain {
    struct petrelknob_plain_numbers numbers;
    uint32_t refused;        /* the number that open returned: 0 where it is open */
    uint8_t *tx_memory;      /* the first byte of the region to transmit in, wherever this side sees it */
    uint8_t *rx_memory;      /* that of the region to receive in */
    size_t tx_length;        /* bytes there, which must be all of the region */
    size_t rx_length;
    uint32_t tx_data_length; /* of the ring; 0 where that region is refused. Its petrelknob_largest_content can be pushed */
    uint32_t rx_data_length; /* likewise; a buffer of its petrelknob_largest_content never meets 26 */
    uint32_t write_index;    /* the own index of the ring to transmit in */
    uint32_t read_index;     /* that of the ring to receive in */
    uint32_t dropped;        /* unread bytes that the last receive dropped: 0, but where it was 9 */
};

/* Makes the unit ready, both own indexes 0. No byte of memory is read or written. Returns what petrelknob_unit_open does, or 6 where a
 * length is not that of its region; a null pointer counts as no bytes. A unit that is refused stays so: each call on it gives that
 * number again.
 */
static inline uint32_t petrelknob_plain_open(struct petrelknob_plain *plain, const struct petrelknob_plain_numbers *numbers,
                                             void *tx_memory, size_t tx_length, void *rx_memory, size_t rx_length)
{
    plain->numbers = *numbers;
    plain->refused = petrelknob_unit_open(numbers->tx_begin, numbers->tx_end, numbers->rx_begin, numbers->rx_end,
                                          numbers->alignment);
    plain->tx_memory = (uint8_t *)tx_memory;
    plain->rx_memory = (uint8_t *)rx_memory;
    plain->tx_length = tx_memory ? tx_length : 0;
    plain->rx_length = rx_memory ? rx_length : 0;
    plain->tx_data_length = petrelknob_unit_data_length(numbers->tx_begin, numbers->tx_end, numbers->alignment);
    plain->rx_data_length = petrelknob_unit_data_length(numbers->rx_begin, numbers->rx_end, numbers->alignment);
    plain->write_index = 0;
    plain->read_index = 0;
    plain->dropped = 0;
    if (plain->refused == PETRELKNOB_ACCEPTED && (plain->tx_length != numbers->tx_end - numbers->tx_begin ||
                                                  plain->rx_length != numbers->rx_end - numbers->rx_begin))
        plain->refused = PETRELKNOB_WRONG_REGION;
    return plain->refused;
}

/* Starts the ring (petrelknob_unit_start). Returns its number; where it is not 0, the write index stays. */
static inline uint32_t petrelknob_plain_start(struct petrelknob_plain *plain)
{
    const struct petrelknob_plain_numbers *numbers = &plain->numbers;
    uint32_t number = plain->refused;
    uint32_t answer[PETRELKNOB_RING_VALUES];
    if (number == PETRELKNOB_ACCEPTED)
        number = petrelknob_unit_start(numbers->tx_begin, numbers->tx_end, numbers->alignment, plain->tx_memory,
                                       plain->tx_length, answer, PETRELKNOB_RING_VALUES);
    if (number == PETRELKNOB_ACCEPTED)
        plain->write_index = answer[PETRELKNOB_OWN_INDEX];
    return number;
}

/* Pushes the content (petrelknob_unit_push). Returns its number; where it is not 0, the write index stays. */
static inline uint32_t petrelknob_plain_push(struct petrelknob_plain *plain, const void *content, size_t content_length)
{
    const struct petrelknob_plain_numbers *numbers = &plain->numbers;
    uint32_t number = plain->refused;
    uint32_t answer[PETRELKNOB_RING_VALUES];
    if (number == PETRELKNOB_ACCEPTED)
        number = petrelknob_unit_push(numbers->tx_begin, numbers->tx_end, numbers->alignment, plain->write_index,
                                      plain->tx_memory, plain->tx_length, (const uint8_t *)content, content_length, answer,
                                      PETRELKNOB_RING_VALUES);
    if (number == PETRELKNOB_ACCEPTED)
        plain->write_index = answer[PETRELKNOB_OWN_INDEX];
    return number;
}

/* Receives the next packet (petrelknob_unit_receive): *length gets the content's length. Returns its number; where it is not 0, *length
 * is 0 and the read index stays, but on 9 all that is unread is dropped: plain->dropped says how many bytes, and the next receive goes
 * on behind them.
 */
static inline uint32_t petrelknob_plain_receive(struct petrelknob_plain *plain, void *buffer, size_t buffer_length,
                                                size_t *length)
{
    const struct petrelknob_plain_numbers *numbers = &plain->numbers;
    uint32_t number = plain->refused;
    uint32_t answer[PETRELKNOB_RING_VALUES] = {0, plain->read_index, 0};
    if (number == PETRELKNOB_ACCEPTED)
        number = petrelknob_unit_receive(numbers->rx_begin, numbers->rx_end, numbers->alignment, plain->read_index,
                                         plain->rx_memory, plain->rx_length, (uint8_t *)buffer, buffer_length, answer,
                                         PETRELKNOB_RING_VALUES);
    plain->read_index = answer[PETRELKNOB_OWN_INDEX]; /* as it was, where nothing was taken or dropped */
    plain->dropped = answer[PETRELKNOB_DROPPED];
    *length = answer[PETRELKNOB_LENGTH];
    return number;
}

#ifdef __cplusplus
}
#endif

#endif
