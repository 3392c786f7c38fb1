/* Petrelknob's sheets: what is set by hand wins over what comes in. For C99 and C++.
 *
 * Link with libpanel.a (make panel), which is for x86-64 Linux. The exported function is proved: it takes any bytes and any lengths,
 * ends, and writes nothing but its answer. The inline one, a few lines of plain C over it, is shorter to call: begin there, and with
 * examples/sheets.c. Slices are as in petrelknob.h: the pointer may be anything where the number of elements is 0, and the bytes have
 * to stand still while a call runs.
 *
 * A sheet is a list of fields, none or more, of at most 4,096 bytes in all. A field is a tag byte, a length byte and a value of as many
 * bytes. Tags from 0x80 on are groups, whose value is again a list of fields; those below are leaves, whose value may be any bytes. The
 * tags of one list differ. The sheet's own list has depth 0, the list of a group in it depth 1, and the deepest lists, of depth 4, have
 * leaves only. A path leads to a field: the tags of the groups around it, the outermost first, then its own.
 *
 *     80 07            a group of 7 bytes           path 80     begin 2, size 7
 *        01 02 10 27   a leaf of 2 bytes in it      path 80 01  begin 4, size 2
 *        02 01 2A      a leaf of 1 byte in it       path 80 02  begin 8, size 1
 *     03 00            a leaf of none, behind it    path 03     begin 11, size 0
 */
#ifndef PETRELKNOB_SHEET_H
#define PETRELKNOB_SHEET_H

#include "petrelknob_numbers.h" /* what the calls return */

#include <stddef.h>
#include <stdint.h>

#ifdef __cplusplus
extern "C" {
#endif

/* The limits of sheets and paths. */
enum petrelknob_sheet_limit {
    PETRELKNOB_SHEET_BYTES = 4096, /* a sheet has at most so many */
    PETRELKNOB_SHEET_DEPTH = 4,    /* of the deepest lists */
    PETRELKNOB_PATH_TAGS = 5,      /* a path has at most so many, and one at least */
    PETRELKNOB_FIRST_GROUP = 0x80  /* the first tag that is a group */
};

/* The two sheets, the one that wins first. */
enum petrelknob_sheet {
    PETRELKNOB_HAND_SET = 0,
    PETRELKNOB_INCOMING = 1
};

/* Where each value of a pick stands in `answer`. */
enum petrelknob_pick_value {
    PETRELKNOB_PART_SHEET = 0, /* the sheet that the part is in: petrelknob_sheet */
    PETRELKNOB_PART_BEGIN = 1, /* its first byte, counted from the sheet's first: behind the field's tag and length */
    PETRELKNOB_PART_SIZE = 2,  /* its bytes */
    PETRELKNOB_PICK_VALUES = 3
};

/* Finds the value of the field that a path leads to: in the hand-set sheet where that has it, else in the incoming one.
 *
 * hand, incoming   the two sheets
 * path             one to five tags; all but the last are groups. A path that ends in a group gets the whole group of that one sheet:
 *                  groups are never merged
 * answer           gets the three values above, or three zeros on a refusal. A shorter answer gets the first answer_length of them;
 *                  elements from the fourth on stay as they are
 *
 * Returns 0, or the number of the first check that fails, in the order 27, 28, 29, 30. Both sheets are judged whole before the path is
 * looked for: a malformed incoming sheet is 29 also where the path is in the hand-set one. A value of no bytes is found like others.
 * Sheets and path are only read, and may overlap each other, but not answer.
 */
uint32_t petrelknob_pick(const uint8_t *hand, size_t hand_length, const uint8_t *incoming, size_t incoming_length,
                         const uint8_t *path, size_t path_length, uint32_t *answer, size_t answer_length);

/* A part of a sheet, in the memory that the sheet is in. */
struct petrelknob_part {
    const uint8_t *bytes; /* null where the pick was refused */
    size_t length;
    uint32_t sheet; /* petrelknob_sheet */
};

/* Finds the value of the field that a path leads to (petrelknob_pick). Returns its number; where it is not 0, the part is empty: null,
 * length 0, sheet 0. */
static inline uint32_t petrelknob_pick_part(const uint8_t *hand, size_t hand_length, const uint8_t *incoming,
                                            size_t incoming_length, const uint8_t *path, size_t path_length,
                                            struct petrelknob_part *part)
{
    uint32_t answer[PETRELKNOB_PICK_VALUES];
    uint32_t number = petrelknob_pick(hand, hand_length, incoming, incoming_length, path, path_length, answer,
                                      PETRELKNOB_PICK_VALUES);
    part->bytes = NULL;
    if (number == PETRELKNOB_ACCEPTED)
        part->bytes = (answer[PETRELKNOB_PART_SHEET] == PETRELKNOB_HAND_SET ? hand : incoming) + answer[PETRELKNOB_PART_BEGIN];
    part->length = answer[PETRELKNOB_PART_SIZE];
    part->sheet = answer[PETRELKNOB_PART_SHEET];
    return number;
}

#ifdef __cplusplus
}
#endif

#endif
