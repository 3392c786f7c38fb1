/* Rounds of calls of the proved end (crates/rounds). Each opens an initiator's end, makes `rounds` rounds of calls on it, and gives the
 * sum of the numbers of what they answered. An opening is the alignment, then begin, end and block count of the transmit region and of
 * the receive region. The transmit region is to hold an empty ring, both indexes zero; what is pushed is taken off in each round. */
#ifndef ROUNDS_H
#define ROUNDS_H

#include <stddef.h>
#include <stdint.h>

/* Reserves k bytes and drops them. Of the first `taken` blocks each `every`-th is reserved before, or all where `every` is 0. */
uint32_t petrelknob_rounds_reserve(const uint32_t *opening, uint32_t taken, uint32_t every, uint32_t k, uint32_t rounds);

/* Reserves k bytes, sends them, and has them released. */
uint32_t petrelknob_rounds_send(const uint32_t *opening, uint8_t *tx, size_t tx_length, const uint8_t *rx, size_t rx_length,
                                uint32_t k, uint32_t rounds);

/* Takes the data message in receive block 0, and is done with it. */
uint32_t petrelknob_rounds_arrival(const uint32_t *opening, uint8_t *tx, size_t tx_length, const uint8_t *rx,
                                   size_t rx_length, uint32_t rounds);

#endif
