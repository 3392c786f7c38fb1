/* Sheets in plain C, with the interface of petrelknob_pick: what the proved one is measured against. */
#ifndef PLAIN_SHEET_H
#define PLAIN_SHEET_H

#include <stddef.h>
#include <stdint.h>

uint32_t plain_pick(const uint8_t *hand, size_t hand_length, const uint8_t *incoming, size_t incoming_length,
                    const uint8_t *path, size_t path_length, uint32_t *answer, size_t answer_length);

#endif
