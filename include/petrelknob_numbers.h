/* Petrelknob's numbers: what a call returns, and what that means. petrelknob.h and petrelknob_sheet.h include it. */
#ifndef PETRELKNOB_NUMBERS_H
#define PETRELKNOB_NUMBERS_H

#include <stdint.h>

/* What a call returns: 0, or the number of the first check that failed. petrelknob_meaning has a sentence for each; layout and
 * ring give 1 to 4 and 6 to 11, a plain unit 1, 3 to 11 and 26, a pick 27 to 30, the others are of a whole end. A refused call changes
 * no byte but those of its answer, and on 9 the read index. */
enum petrelknob_number {
    PETRELKNOB_ACCEPTED = 0,
    PETRELKNOB_BAD_ALIGNMENT = 1,
    PETRELKNOB_BAD_BLOCK_COUNT = 2,
    PETRELKNOB_BAD_BOUNDS = 3,
    PETRELKNOB_TOO_SMALL = 4,
    PETRELKNOB_OVERLAP = 5,
    PETRELKNOB_WRONG_REGION = 6,
    PETRELKNOB_BAD_INDEX = 7,
    PETRELKNOB_EMPTY = 8,
    PETRELKNOB_BROKEN_PACKET = 9,
    PETRELKNOB_FULL = 10,
    PETRELKNOB_TOO_LONG = 11,
    PETRELKNOB_TOO_SHORT = 12,
    PETRELKNOB_UNKNOWN_KIND = 13,
    PETRELKNOB_BAD_ADDRESS = 14,
    PETRELKNOB_NOT_BOUND = 15,
    PETRELKNOB_BAD_BLOCK = 16,
    PETRELKNOB_PAST_THE_LAST_BLOCK = 17,
    PETRELKNOB_BLOCK_HELD = 18,
    PETRELKNOB_NOT_FOLLOWER = 19,
    PETRELKNOB_BAD_NAME = 20,
    PETRELKNOB_NAME_TAKEN = 21,
    PETRELKNOB_NO_PLACE = 22,
    PETRELKNOB_CANNOT_FIT = 23,
    PETRELKNOB_NO_ROOM = 24,
    PETRELKNOB_NO_MESSAGE = 25,
    PETRELKNOB_SHORT_BUFFER = 26,
    PETRELKNOB_BAD_PATH = 27,
    PETRELKNOB_BAD_HAND_SHEET = 28,
    PETRELKNOB_BAD_INCOMING_SHEET = 29,
    PETRELKNOB_NOT_FOUND = 30
};

/* What a number means, in words. Any number has an answer. */
static inline const char *petrelknob_meaning(uint32_t number)
{
    switch (number) {
    case PETRELKNOB_ACCEPTED: return "accepted";
    case PETRELKNOB_BAD_ALIGNMENT: return "the alignment is no power of two from 4 to 256";
    case PETRELKNOB_BAD_BLOCK_COUNT: return "a block count is not from 1 to 256";
    case PETRELKNOB_BAD_BOUNDS: return "the region's begin is not below its end, or it has over 1,048,576 bytes";
    case PETRELKNOB_TOO_SMALL: return "the region is too small for its ring, or for its blocks of one alignment each";
    case PETRELKNOB_OVERLAP: return "the two regions share a byte";
    case PETRELKNOB_WRONG_REGION: return "the lent bytes are not the whole region, the own index is out of rule, or the end is closed";
    case PETRELKNOB_BAD_INDEX: return "the partner's index is not below the data length, or no multiple of 4";
    case PETRELKNOB_EMPTY: return "nothing on the ring is unread";
    case PETRELKNOB_BROKEN_PACKET: return "the next packet is longer than the unread bytes, and all of them are dropped";
    case PETRELKNOB_FULL: return "the packet does not fit beside the unread bytes";
    case PETRELKNOB_TOO_LONG: return "the content has over 65,535 bytes";
    case PETRELKNOB_TOO_SHORT: return "the control message is too short";
    case PETRELKNOB_UNKNOWN_KIND: return "the control message is of unknown kind";
    case PETRELKNOB_BAD_ADDRESS: return "the address is above 0xFD";
    case PETRELKNOB_NOT_BOUND: return "no bound endpoint has the address";
    case PETRELKNOB_BAD_BLOCK: return "the block number is not below the block count";
    case PETRELKNOB_PAST_THE_LAST_BLOCK: return "the message runs past the last block";
    case PETRELKNOB_BLOCK_HELD: return "a block of the arriving message is held";
    case PETRELKNOB_NOT_FOLLOWER: return "a binding was sent to an initiator";
    case PETRELKNOB_BAD_NAME: return "the name is outside the limits, or not zero-ended";
    case PETRELKNOB_NAME_TAKEN: return "the name, or the address that comes with it, is taken";
    case PETRELKNOB_NO_PLACE: return "all eight places for endpoints, or for stored bindings, are taken";
    case PETRELKNOB_CANNOT_FIT: return "the message is longer than can ever fit";
    case PETRELKNOB_NO_ROOM: return "no run of free blocks is long enough";
    case PETRELKNOB_NO_MESSAGE: return "no message starts there in the state that the call needs";
    case PETRELKNOB_SHORT_BUFFER: return "the buffer is shorter than the content, which stays on the ring";
    case PETRELKNOB_BAD_PATH: return "the path has no tag or over five, or passes through a tag below 0x80";
    case PETRELKNOB_BAD_HAND_SHEET: return "the hand-set sheet is malformed";
    case PETRELKNOB_BAD_INCOMING_SHEET: return "the incoming sheet is malformed";
    case PETRELKNOB_NOT_FOUND: return "neither sheet has the path";
    default: return "no such number";
    }
}

#endif
