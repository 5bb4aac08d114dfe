/* 02, ticket 6: a loader that can't join two versions. */
#ifndef IND_LOAD_H
#define IND_LOAD_H

#include <stddef.h>

#include "answer.h"

/* The numbers of a piece, in their order. The first five are the identity,
 * which a transfer is opened with. */
enum {
    IND_STATION_NUMBER,
    IND_TYPE_NUMBER,
    IND_VERSION_NUMBER,
    IND_TOTAL_NUMBER,
    IND_TRAILER_NUMBER,
    IND_IDENTITY_NUMBERS,
    /* Where its bytes start in the file, and how many they are. */
    IND_START_NUMBER = IND_IDENTITY_NUMBERS,
    IND_COUNT_NUMBER,
    IND_PIECE_NUMBERS
};

/* A number's groups: seven bits each, low group first, and the top bit set on
 * all but the last. No number of 32 bits has more than five. */
enum {
    IND_GROUP_BITS = 7,
    IND_GROUP_MASK = 0x7F,
    IND_GROUP_MORE = 0x80,
    IND_GROUPS_MOST = 5
};

/* A transfer: its identity and the next byte due. With nothing opened the
 * numbers mean nothing; one that is all zero has nothing opened. */
typedef struct {
    int opened;
    uint32_t identity[IND_IDENTITY_NUMBERS];
    uint32_t due;
} ind_transfer;

/* Opens a transfer with an identity; a room of so many bytes is lent. A refused
 * opening changes nothing; a granted one forgets all. */
ind_answer ind_load_open(ind_transfer *transfer,
                         const uint64_t identity[IND_IDENTITY_NUMBERS],
                         size_t room_length);

/* Takes a piece: its bytes go to the room from its start on. A refused one
 * changes nothing. */
ind_answer ind_load_piece(ind_transfer *transfer, const uint8_t *piece,
                          size_t length, uint8_t *room, size_t room_length);

/* Finishes a transfer: the reader's verdict on the room's first bytes, as many
 * as the total, and then whether they are the file that was opened. Changes
 * nothing. */
ind_answer ind_load_finish(const ind_transfer *transfer, const uint8_t *room,
                           size_t room_length);

#endif
