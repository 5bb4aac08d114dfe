/* 02, ticket 6: a transfer is opened with an identity, every piece repeats it,
 * and finishing runs the reader on the whole. */
#include "load.h"

#include "application.h"
#include "geography.h"
#include "opening.h"
#include "tables.h"

/* ---- opening */

static int fits_32_bits(uint64_t number)
{
    return number <= UINT32_MAX;
}

/* The reader's least length for a file type. Of an X.1 it is that of structure
 * version 1: which one the file has is not known yet. */
static uint64_t least_total(uint64_t type)
{
    return type == IND_X1_TYPE ? (uint64_t)IND_X1_LEAST_LENGTH
                               : (uint64_t)IND_X2_LEAST_LENGTH;
}

ind_answer ind_load_open(ind_transfer *transfer,
                         const uint64_t identity[IND_IDENTITY_NUMBERS],
                         size_t room_length)
{
    uint64_t type = identity[IND_TYPE_NUMBER];
    uint64_t total = identity[IND_TOTAL_NUMBER];
    if ((type != IND_X1_TYPE && type != IND_X2_TYPE)
        || !fits_32_bits(identity[IND_STATION_NUMBER])
        || !fits_32_bits(identity[IND_VERSION_NUMBER])
        || !fits_32_bits(identity[IND_TRAILER_NUMBER]))
        return ind_says(IND_OUT_OF_RANGE, 0);
    if (total < least_total(type) || total > IND_LARGEST_FILE
        || total > room_length)
        return ind_says(IND_ROOM, 0);
    transfer->opened = 1;
    for (uint32_t i = 0; i < IND_IDENTITY_NUMBERS; i++)
        transfer->identity[i] = (uint32_t)identity[i];
    transfer->due = 0;
    return ind_says(IND_ACCEPTED, 0);
}

/* ---- pieces */

/* Takes the number that stands at a place of a piece, and moves the place
 * behind it. 0 where it is bad: cut off by the piece's end, not in the
 * shortest form, or of more than 32 bits. */
static int take_number(const uint8_t *piece, size_t length, size_t *place,
                       uint32_t *number)
{
    uint64_t value = 0;
    for (int group = 0; group < IND_GROUPS_MOST && *place < length; group++) {
        uint8_t byte = piece[(*place)++];
        value |= (uint64_t)(byte & IND_GROUP_MASK) << IND_GROUP_BITS * group;
        if (byte & IND_GROUP_MORE)
            continue;
        *number = (uint32_t)value;
        return fits_32_bits(value) && (byte != 0 || group == 0);
    }
    return 0;
}

/* Takes a piece's numbers; the place is then where its bytes begin. 0 where a
 * number is bad, there are no bytes, or the byte count isn't the count of bytes
 * following. */
static int take_head(const uint8_t *piece, size_t length, size_t *place,
                     uint32_t numbers[IND_PIECE_NUMBERS])
{
    for (uint32_t i = 0; i < IND_PIECE_NUMBERS; i++)
        if (!take_number(piece, length, place, &numbers[i]))
            return 0;
    return *place < length && numbers[IND_COUNT_NUMBER] == length - *place;
}

/* Something is opened, and with this identity. */
static int is_opened_with(const ind_transfer *transfer,
                          const uint32_t identity[IND_IDENTITY_NUMBERS])
{
    uint32_t alike = 0;
    while (alike < IND_IDENTITY_NUMBERS
           && identity[alike] == transfer->identity[alike])
        alike++;
    return transfer->opened && alike == IND_IDENTITY_NUMBERS;
}

/* Why a piece is refused whose numbers are good and whose bytes are as many as
 * it counts. */
static uint32_t refusal(const ind_transfer *transfer,
                        const uint32_t numbers[IND_PIECE_NUMBERS],
                        size_t room_length)
{
    uint32_t total = transfer->identity[IND_TOTAL_NUMBER];
    uint32_t start = numbers[IND_START_NUMBER];
    if (!is_opened_with(transfer, numbers))
        return IND_IDENTITY;
    if (start != transfer->due)
        return IND_ORDER;
    if ((uint64_t)start + numbers[IND_COUNT_NUMBER] > total)
        return IND_PIECE;
    return room_length < total ? IND_ROOM : IND_ACCEPTED;
}

ind_answer ind_load_piece(ind_transfer *transfer, const uint8_t *piece,
                          size_t length, uint8_t *room, size_t room_length)
{
    uint32_t numbers[IND_PIECE_NUMBERS];
    size_t place = 0;
    uint32_t number;
    if (!take_head(piece, length, &place, numbers))
        return ind_says(IND_PIECE, 0);
    number = refusal(transfer, numbers, room_length);
    if (number != IND_ACCEPTED)
        return ind_says(number, 0);
    while (place < length)
        room[transfer->due++] = piece[place++];
    return ind_says(IND_ACCEPTED, 0);
}

/* ---- finishing */

/* Whether an accepted file's header and trailer are the identity's; its length
 * is, since it was read as so many bytes. */
static int is_the_one(const ind_transfer *transfer, const uint8_t *file)
{
    const uint32_t *identity = transfer->identity;
    uint32_t trailer = ind_end(identity[IND_TOTAL_NUMBER]);
    return ind_two(file, IND_STATION_PLACE) == identity[IND_STATION_NUMBER]
        && file[IND_FILE_TYPE_PLACE] == identity[IND_TYPE_NUMBER]
        && ind_two(file, IND_DATA_VERSION_PLACE)
        == identity[IND_VERSION_NUMBER]
        && ind_four(file, trailer) == identity[IND_TRAILER_NUMBER];
}

ind_answer ind_load_finish(const ind_transfer *transfer, const uint8_t *room,
                           size_t room_length)
{
    uint32_t total = transfer->identity[IND_TOTAL_NUMBER];
    ind_answer verdict;
    if (!transfer->opened || transfer->due != total)
        return ind_says(IND_ORDER, 0);
    if (room_length < total)
        return ind_says(IND_ROOM, 0);
    verdict = transfer->identity[IND_TYPE_NUMBER] == IND_X1_TYPE
        ? ind_x1(room, total)
        : ind_x2(room, total);
    if (verdict.number == IND_ACCEPTED && !is_the_one(transfer, room))
        return ind_says(IND_IDENTITY, 0);
    return verdict;
}
