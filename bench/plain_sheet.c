#include "plain_sheet.h"

#include <stdbool.h>

enum { MOST_BYTES = 4096, MOST_TAGS = 5, FIRST_GROUP = 0x80, DEEPEST = 4 };

/* Whether the bytes are a list of fields that may stand at this depth. */
static bool is_list(const uint8_t *bytes, size_t length, int depth)
{
    uint64_t seen[4] = {0}; /* a bit for each tag */
    size_t at = 0;
    while (at < length) {
        if (length - at < 2)
            return false;
        uint8_t tag = bytes[at], size = bytes[at + 1];
        uint64_t bit = (uint64_t)1 << tag % 64;
        at += 2;
        if (size > length - at || seen[tag / 64] & bit)
            return false;
        seen[tag / 64] |= bit;
        if (tag >= FIRST_GROUP && (depth == DEEPEST || !is_list(bytes + at, size, depth + 1)))
            return false;
        at += size;
    }
    return true;
}

static bool is_sheet(const uint8_t *bytes, size_t length)
{
    return length <= MOST_BYTES && is_list(bytes, length, 0);
}

static bool is_path(const uint8_t *path, size_t length)
{
    if (length < 1 || length > MOST_TAGS)
        return false;
    for (size_t i = 0; i + 1 < length; i++)
        if (path[i] < FIRST_GROUP)
            return false;
    return true;
}

/* Where the path's value lies in a well-formed sheet. */
static bool find(const uint8_t *sheet, size_t length, const uint8_t *path, size_t path_length, size_t *begin, size_t *end)
{
    *begin = 0;
    *end = length;
    for (size_t i = 0; i < path_length; i++) {
        size_t at = *begin;
        while (at < *end && sheet[at] != path[i])
            at += 2 + (size_t)sheet[at + 1];
        if (at >= *end)
            return false;
        *begin = at + 2;
        *end = at + 2 + sheet[at + 1];
    }
    return true;
}

static uint32_t give(uint32_t number, uint32_t sheet, size_t begin, size_t end, uint32_t *answer, size_t answer_length)
{
    if (answer_length > 0)
        answer[0] = sheet;
    if (answer_length > 1)
        answer[1] = (uint32_t)begin;
    if (answer_length > 2)
        answer[2] = (uint32_t)(end - begin);
    return number;
}

uint32_t plain_pick(const uint8_t *hand, size_t hand_length, const uint8_t *incoming, size_t incoming_length,
                    const uint8_t *path, size_t path_length, uint32_t *answer, size_t answer_length)
{
    size_t begin, end;
    if (!is_path(path, path_length))
        return give(27, 0, 0, 0, answer, answer_length);
    if (!is_sheet(hand, hand_length))
        return give(28, 0, 0, 0, answer, answer_length);
    if (!is_sheet(incoming, incoming_length))
        return give(29, 0, 0, 0, answer, answer_length);
    if (find(hand, hand_length, path, path_length, &begin, &end))
        return give(0, 0, begin, end, answer, answer_length);
    if (find(incoming, incoming_length, path, path_length, &begin, &end))
        return give(0, 1, begin, end, answer, answer_length);
    return give(30, 0, 0, 0, answer, answer_length);
}
