/* Petrelknob's call script: one end of a link, driven by bytes (docs/SCRIPT.md has the format).
 *
 * Link with libscript.a (make library). It is for tests and measurements: a script opens an end, makes calls on it, and gets a row
 * of 14 numbers for each. The function is proved to be safe and to end for any bytes; slices are as in petrelknob.h.
 */
#ifndef PETRELKNOB_SCRIPT_H
#define PETRELKNOB_SCRIPT_H

#include <stddef.h>
#include <stdint.h>

#ifdef __cplusplus
extern "C" {
#endif

/* Bytes of a script's opening, and of a record before its body. */
enum petrelknob_script_size {
    PETRELKNOB_SCRIPT_OPENING = 22,
    PETRELKNOB_SCRIPT_HEADER = 3
};

/* Kinds of records. The comment has the body; numbers are little-endian, of 4 bytes where nothing else is said. */
enum petrelknob_record {
    PETRELKNOB_RECORD_ARRIVAL = 0,        /* control message, any bytes */
    PETRELKNOB_RECORD_REGISTER = 1,       /* name, any bytes */
    PETRELKNOB_RECORD_RESERVE = 2,        /* K */
    PETRELKNOB_RECORD_SEND = 3,           /* start, address, K */
    PETRELKNOB_RECORD_DROP = 4,           /* start */
    PETRELKNOB_RECORD_DONE = 5,           /* start */
    PETRELKNOB_RECORD_PUSH = 6,           /* content, any bytes */
    PETRELKNOB_RECORD_START = 16,         /* empty */
    PETRELKNOB_RECORD_PULL = 17,          /* buffer length, 2 bytes */
    PETRELKNOB_RECORD_ROOM = 18,          /* start */
    PETRELKNOB_RECORD_VIEW = 19,          /* start */
    PETRELKNOB_RECORD_ROOM_QUESTION = 20, /* start, length */
    PETRELKNOB_RECORD_VIEW_QUESTION = 21, /* start, length */
    PETRELKNOB_RECORD_WRITE_RX = 32,      /* offset, then bytes */
    PETRELKNOB_RECORD_WRITE_TX = 33,      /* offset, then bytes */
    PETRELKNOB_RECORD_LEND = 34           /* transmit length, receive length */
};

/* Where each number stands in a row. Number i is in the bytes from 4 * i on, little-endian. */
enum petrelknob_row_value {
    PETRELKNOB_ROW_NUMBER = 0,      /* 0, or the refusal number, 1 to 25: petrelknob_numbers.h */
    PETRELKNOB_ROW_VALUES = 1,      /* how many of the four values count */
    PETRELKNOB_ROW_VALUE_1 = 2,     /* the values; those behind the last that counts are 0 */
    PETRELKNOB_ROW_VALUE_2 = 3,
    PETRELKNOB_ROW_VALUE_3 = 4,
    PETRELKNOB_ROW_VALUE_4 = 5,
    PETRELKNOB_ROW_PLACE_BEGIN = 6, /* of a room or view: its first byte, counted from the region's begin */
    PETRELKNOB_ROW_PLACE_SIZE = 7,  /* of a room or view: its bytes */
    PETRELKNOB_ROW_FREE_TX = 8,     /* free transmit blocks, afterwards; 0 at a closed end */
    PETRELKNOB_ROW_FREE_RX = 9,     /* free receive blocks, afterwards; 0 at a closed end */
    PETRELKNOB_ROW_SUM_TX = 10,     /* the sum of all bytes of tx, afterwards */
    PETRELKNOB_ROW_SUM_RX = 11,     /* the sum of all bytes of rx, afterwards */
    PETRELKNOB_ROW_SUM_BUFFER = 12, /* the sum of all bytes of buffer, afterwards */
    PETRELKNOB_ROW_GIVEN = 13,      /* what is given with the answer, so what the values are: petrelknob_given */
    PETRELKNOB_ROW_NUMBERS = 14,
    PETRELKNOB_ROW_BYTES = 56
};

/* What is given with an answer. */
enum petrelknob_given {
    PETRELKNOB_GIVEN_NOTHING = 0, /* no values */
    PETRELKNOB_GIVEN_LENGTH = 1,  /* of start, push and pull: the length, 0 where refused; of a pull with 9 also the bytes dropped */
    PETRELKNOB_GIVEN_RUN = 2,     /* of reserve: start, count */
    PETRELKNOB_GIVEN_CONTROL = 3, /* of send, done and register: the three bytes, pushed; of arrival: to be pushed */
    PETRELKNOB_GIVEN_DELIVERY = 4 /* of arrival, a data message: address, start, K */
};

/* Opens an end and runs a script's records on it.
 *
 * script       an opening, then records
 * tx, rx       the memory of the transmit and of the receive region; calls are lent the first bytes, as many as the region has
 * buffer       what pull copies to
 * out          gets a row for the opening and for each record; bytes behind the last row stay as they are
 *
 * No two of the slices may overlap. Returns how many bytes of out were written, a multiple of 56: a record that is not whole, has an
 * unknown kind or a body of the wrong length, or whose row does not fit, ends the run before it. It is 0 where the script has under
 * 22 bytes or out under 56.
 */
size_t petrelknob_script(const uint8_t *script, size_t script_length, uint8_t *tx, size_t tx_length,
                         uint8_t *rx, size_t rx_length, uint8_t *buffer, size_t buffer_length,
                         uint8_t *out, size_t out_length);

#ifdef __cplusplus
}
#endif

#endif
