/* The ring in plain C, with the interface of petrelknob_start, petrelknob_push and petrelknob_pull, and for a plain unit with that of
 * petrelknob_unit_start, petrelknob_unit_push and petrelknob_unit_receive: what the proved ring is measured against. */
#ifndef PLAIN_RING_H
#define PLAIN_RING_H

#include <stddef.h>
#include <stdint.h>

uint32_t plain_start(uint32_t begin, uint32_t end, uint32_t local_blocks, uint32_t remote_blocks, uint32_t alignment,
                     uint8_t *region, size_t region_length, uint32_t *answer, size_t answer_length);

uint32_t plain_push(uint32_t begin, uint32_t end, uint32_t local_blocks, uint32_t remote_blocks, uint32_t alignment,
                    uint32_t own_index, uint8_t *region, size_t region_length, const uint8_t *content,
                    size_t content_length, uint32_t *answer, size_t answer_length);

uint32_t plain_pull(uint32_t begin, uint32_t end, uint32_t local_blocks, uint32_t remote_blocks, uint32_t alignment,
                    uint32_t own_index, uint8_t *region, size_t region_length, uint8_t *buffer, size_t buffer_length,
                    uint32_t *answer, size_t answer_length);

uint32_t plain_unit_start(uint32_t begin, uint32_t end, uint32_t alignment, uint8_t *region, size_t region_length,
                          uint32_t *answer, size_t answer_length);

uint32_t plain_unit_push(uint32_t begin, uint32_t end, uint32_t alignment, uint32_t own_index, uint8_t *region,
                         size_t region_length, const uint8_t *content, size_t content_length, uint32_t *answer,
                         size_t answer_length);

uint32_t plain_unit_receive(uint32_t begin, uint32_t end, uint32_t alignment, uint32_t own_index, uint8_t *region,
                            size_t region_length, uint8_t *buffer, size_t buffer_length, uint32_t *answer,
                            size_t answer_length);

#endif
