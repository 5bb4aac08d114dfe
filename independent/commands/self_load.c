/* 02's ticket 6: a loader that can't join two versions. The opening's refusals,
 * the numbers' forms, each refusal of a piece and their order, finishing, what
 * is left by what is refused, the incident of two versions, and the form of the
 * cases and of the two commands. */
#include "self.h"

#include <string.h>

#include "answer.h"
#include "batch.h"
#include "generator/cases.h"
#include "load.h"

enum {
    /* The room of these examples, and what stands in it before. */
    ROOM_SIZE = 300,
    ROOM_BYTE = 0xA5,
    /* The lengths of the files that are sent. */
    ONE_LENGTH = 68,
    HIGH_LENGTH = 72,
    Y_LENGTH = 108,
    /* Larger than any piece here. */
    PIECE_ROOM = 600
};

/* A transfer and its room, now and before the last call. */
typedef struct {
    ind_transfer transfer;
    uint8_t room[ROOM_SIZE];
} side;

static side now, before;

/* What is sent, and the numbers of the piece that is due. */
static stored sent;
static uint32_t numbers[IND_PIECE_NUMBERS];

/* ---- calls */

static void begin_side(void)
{
    memset(&now, 0, sizeof now);
    memset(now.room, ROOM_BYTE, sizeof now.room);
}

/* Whether this is the answer, with nothing changed where it is a refusal. */
static int gives(ind_answer answer, uint32_t number, uint32_t place)
{
    int kept = memcmp(&now, &before, sizeof now) == 0;
    return answer.number == number && answer.place == place
        && answer.file == IND_NO_FILE && (number == IND_ACCEPTED || kept);
}

static ind_answer open_with(const uint32_t identity[IND_IDENTITY_NUMBERS],
                            uint32_t lent)
{
    uint64_t wide[IND_IDENTITY_NUMBERS];
    for (uint32_t i = 0; i < IND_IDENTITY_NUMBERS; i++)
        wide[i] = identity[i];
    before = now;
    return ind_load_open(&now.transfer, wide, lent);
}

static ind_answer give_bytes(const uint8_t *piece, uint32_t length,
                             uint32_t lent)
{
    before = now;
    return ind_load_piece(&now.transfer, piece, length, now.room, lent);
}

static ind_answer finish_in(uint32_t lent)
{
    before = now;
    return ind_load_finish(&now.transfer, now.room, lent);
}

/* A piece with these numbers and so many bytes of the file from its start on.
 * Its length. */
static uint32_t make_piece(uint8_t piece[PIECE_ROOM], uint32_t following)
{
    uint32_t length = 0, start = numbers[IND_START_NUMBER];
    for (uint32_t i = 0; i < IND_PIECE_NUMBERS; i++)
        length += put_groups(piece + length, numbers[i], 0);
    for (uint32_t i = 0; i < following; i++)
        piece[length++] = start + i < sent.length ? sent.bytes[start + i] : 0;
    return length;
}

/* The numbers of the piece that is due, with so many bytes. */
static void number_due(uint32_t count)
{
    identity_of(sent.bytes, sent.length, numbers);
    numbers[IND_START_NUMBER] = now.transfer.due;
    numbers[IND_COUNT_NUMBER] = count;
}

static ind_answer give_numbers(uint32_t following, uint32_t lent)
{
    uint8_t piece[PIECE_ROOM];
    uint32_t length = make_piece(piece, following);
    return give_bytes(piece, length, lent);
}

static ind_answer give_due(uint32_t count)
{
    number_due(count);
    return give_numbers(count, ROOM_SIZE);
}

/* The whole room is as it was, but for so many bytes of the file. */
static int holds(uint32_t bytes)
{
    for (uint32_t i = bytes; i < ROOM_SIZE; i++)
        if (now.room[i] != ROOM_BYTE)
            return 0;
    return memcmp(now.room, sent.bytes, bytes) == 0
        && now.transfer.due == bytes;
}

/* An X.1 of structure version 2: one track, two points with heights of 0. */
static void make_high(stored *file)
{
    enum { LAST_OFFSET = 36, FIRST = 38, SECOND = 51, HEIGHT_SIZE = 2 };
    static stored one;
    make_one_track(&one, 3, 1);
    memcpy(file->bytes, one.bytes, SECOND);
    memset(file->bytes + SECOND, 0, HEIGHT_SIZE);
    memcpy(file->bytes + SECOND + HEIGHT_SIZE, one.bytes + SECOND,
           SECOND - FIRST);
    memset(file->bytes + SECOND + HEIGHT_SIZE + SECOND - FIRST, 0,
           HEIGHT_SIZE);
    put_two(file->bytes, IND_STRUCTURE_VERSION_PLACE, IND_VERSION_2);
    put_two(file->bytes, LAST_OFFSET, SECOND + HEIGHT_SIZE);
    file->length = HIGH_LENGTH;
    seal(file);
}

/* The file that is sent: an X.1 of either version, or yard Y. */
static void send_file(uint32_t length)
{
    if (length == ONE_LENGTH)
        make_one_track(&sent, 3, 1);
    else if (length == HIGH_LENGTH)
        make_high(&sent);
    else
        make_y(&sent, Y_SECOND_END);
}

/* Opened with the file's own identity, and so many bytes taken. */
static int begin_with(uint32_t length, uint32_t taken)
{
    begin_side();
    send_file(length);
    number_due(0);
    return open_with(numbers, ROOM_SIZE).number == IND_ACCEPTED
        && (taken == 0 || give_due(taken).number == IND_ACCEPTED)
        && holds(taken);
}

/* ---- opening */

/* An identity, how much room is lent, and what is due. */
static const struct {
    uint64_t identity[IND_IDENTITY_NUMBERS];
    uint32_t room;
    uint32_t number;
    const char *sentence;
} openings[] = {
    { { 1, 1, 1, 68, 5 }, 68, 0, "an X.1 of 68 bytes in just that room" },
    { { 1, 1, 1, 68, 5 }, 67, 15, "room one byte short: 15" },
    { { 1, 1, 1, 67, 5 }, 68, 15, "an X.1 of 67 bytes: 15" },
    { { 1, 2, 1, 69, 5 }, 69, 0, "an X.2 of 69 bytes" },
    { { 1, 2, 1, 68, 5 }, 69, 15, "an X.2 of 68 bytes: 15" },
    { { 1, 1, 1, 0, 5 }, 300, 15, "a total of 0: 15" },
    { { 1, 1, 1, 65535, 5 }, 65535, 0, "a total of 65,535" },
    { { 1, 2, 1, 65535, 5 }, 65536, 0, "the same of an X.2, room for more" },
    { { 1, 1, 1, 65535, 5 }, 65534, 15, "65,535 in room of 65,534: 15" },
    { { 1, 1, 1, 65536, 5 }, 65536, 15, "a total of 65,536: 15" },
    { { 1, 2, 1, 65536 + 108, 5 }, 1000000, 15, "65,536 more than 108: 15" },
    { { 1, 2, 1, 4294967295, 5 }, 300, 15, "a total of 2^32 - 1: 15" },
    { { 1, 2, 1, 4294967296 + 108, 5 }, 300, 15, "2^32 more than 108: 15" },
    { { 1, 0, 1, 68, 5 }, 300, 13, "type 0: 13" },
    { { 1, 3, 1, 68, 5 }, 300, 13, "type 3: 13" },
    { { 1, 257, 1, 68, 5 }, 300, 13, "type 257: 13" },
    { { 1, 65538, 1, 69, 5 }, 300, 13, "type 65,538: 13" },
    { { 1, 4294967297, 1, 68, 5 }, 300, 13, "type 2^32 + 1: 13" },
    { { 1, 0, 1, 67, 5 }, 0, 13, "type 0 comes before the total" },
    { { 1, 3, 1, 65536, 5 }, 0, 13, "type 3 comes before the total" },
    { { 1, 1, 1, 68, 5 }, 0, 15, "no room: 15" },
    { { 0, 1, 0, 68, 0 }, 300, 0, "a station, a version and a trailer of 0" },
    { { 70000, 1, 1, 68, 5 }, 300, 0, "a station of 70,000 opens" },
    { { 4294967295, 2, 4294967295, 69, 4294967295 }, 300, 0,
      "2^32 - 1 for each opens" },
    { { 4294967296, 1, 1, 68, 5 }, 300, 13, "a station of 2^32: 13" },
    { { 1, 1, 4294967296, 68, 5 }, 300, 13, "a version of 2^32: 13" },
    { { 1, 1, 1, 68, 4294967296 }, 300, 13, "a trailer of 2^32: 13" },
    { { 4294967296, 1, 1, 67, 5 }, 0, 13, "a station of 2^32, before 15" }
};

/* Whether what was opened is this identity, with nothing taken. */
static int opened_anew(const uint64_t identity[IND_IDENTITY_NUMBERS])
{
    uint32_t alike = 0;
    while (alike < IND_IDENTITY_NUMBERS
           && now.transfer.identity[alike] == identity[alike])
        alike++;
    return alike == IND_IDENTITY_NUMBERS && now.transfer.opened
        && now.transfer.due == 0
        && memcmp(now.room, before.room, sizeof now.room) == 0;
}

/* An opening with nothing opened before, or with a transfer under way. */
static int opening_right(size_t which, int under_way)
{
    const uint64_t *identity = openings[which].identity;
    ind_answer answer;
    begin_side();
    if (under_way && !begin_with(Y_LENGTH, 50))
        return 0;
    before = now;
    answer = ind_load_open(&now.transfer, identity, openings[which].room);
    if (!gives(answer, openings[which].number, 0))
        return 0;
    return openings[which].number != IND_ACCEPTED || opened_anew(identity);
}

static void opening_examples(void)
{
    for (size_t i = 0; i < sizeof openings / sizeof *openings; i++)
        ensure(opening_right(i, 0) && opening_right(i, 1),
               openings[i].sentence);
    ensure(begin_with(Y_LENGTH, 50) && open_with(numbers, 107).number == 15
               && give_due(58).number == 0 && finish_in(108).number == 0,
           "a transfer under way goes on after a refused opening");
    ensure(begin_with(Y_LENGTH, 50) && open_with(numbers, 108).number == 0
               && now.transfer.due == 0
               && memcmp(now.room, sent.bytes, 50) == 0
               && gives(finish_in(108), 18, 0),
           "opening anew with the same identity forgets, and writes nothing");
    number_due(58);
    numbers[IND_START_NUMBER] = 50;
    ensure(gives(give_numbers(58, ROOM_SIZE), 18, 0)
               && give_due(108).number == 0 && finish_in(108).number == 0,
           "after that the first byte is due again");
}

/* ---- numbers */

enum { FORM_ROOM = 11 };

/* A number's bytes, how many, what they are or what a careless reader takes
 * them for, and whether they are good. */
static const struct {
    uint8_t bytes[FORM_ROOM];
    uint32_t size;
    uint32_t value;
    int good;
    const char *sentence;
} forms[] = {
    { { 0x00 }, 1, 0, 1, "0 is one group" },
    { { 0x01 }, 1, 1, 1, "1 is one group" },
    { { 0x7F }, 1, 127, 1, "127 is one group" },
    { { 0x80, 0x01 }, 2, 128, 1, "128 is two" },
    { { 0xAC, 0x02 }, 2, 300, 1, "300 is AC 02" },
    { { 0xFF, 0x7F }, 2, 16383, 1, "16,383 is two" },
    { { 0x80, 0x80, 0x01 }, 3, 16384, 1, "16,384 is three" },
    { { 0xF0, 0xA2, 0x04 }, 3, 70000, 1, "70,000 is F0 A2 04" },
    { { 0xFF, 0xFF, 0x7F }, 3, 2097151, 1, "2^21 - 1 is three" },
    { { 0x80, 0x80, 0x80, 0x01 }, 4, 2097152, 1, "2^21 is four" },
    { { 0xFF, 0xFF, 0xFF, 0x7F }, 4, 268435455, 1, "2^28 - 1 is four" },
    { { 0x80, 0x80, 0x80, 0x80, 0x01 }, 5, 268435456, 1, "2^28 is five" },
    { { 0xFF, 0xFF, 0xFF, 0xFF, 0x0F }, 5, 4294967295, 1,
      "2^32 - 1 is five" },
    { { 0x80, 0x00 }, 2, 0, 0, "0 in two groups" },
    { { 0x81, 0x00 }, 2, 1, 0, "1 in two groups" },
    { { 0xFF, 0x80, 0x00 }, 3, 127, 0, "127 in three groups" },
    { { 0xAC, 0x82, 0x80, 0x80, 0x00 }, 5, 300, 0, "300 in five groups" },
    { { 0xFF, 0xFF, 0xFF, 0xFF, 0x00 }, 5, 268435455, 0,
      "2^28 - 1 in five groups" },
    { { 0x80, 0x80, 0x80, 0x80, 0x10 }, 5, 0, 0, "2^32" },
    { { 0x81, 0x80, 0x80, 0x80, 0x10 }, 5, 1, 0, "2^32 + 1" },
    { { 0xFF, 0xFF, 0xFF, 0xFF, 0x1F }, 5, 4294967295, 0, "2^33 - 1" },
    { { 0x81, 0x80, 0x80, 0x80, 0x40 }, 5, 1, 0, "2^34 + 1" },
    { { 0xFF, 0xFF, 0xFF, 0xFF, 0x7F }, 5, 4294967295, 0, "2^35 - 1" },
    { { 0x81, 0x80, 0x80, 0x80, 0x80, 0x00 }, 6, 1, 0, "1 in six groups" },
    { { 0xFF, 0xFF, 0xFF, 0xFF, 0x8F, 0x00 }, 6, 4294967295, 0,
      "2^32 - 1 in six groups" },
    { { 0x81, 0x80, 0x80, 0x80, 0x80, 0x01 }, 6, 1, 0, "2^35 + 1" },
    { { 0x81, 0x80, 0x80, 0x80, 0x80, 0x80, 0x80, 0x80, 0x80, 0x80, 0x00 },
      11, 1, 0, "1 in eleven groups" },
    { { 0x81, 0x80, 0x80, 0x80, 0x80, 0x80, 0x80, 0x80, 0x80, 0x02 }, 10, 1,
      0, "2^64 + 1" }
};

/* The first piece of Y under an identity that has this number at its place, in
 * the form's own bytes. */
static ind_answer give_form(size_t which, uint32_t place)
{
    uint8_t piece[PIECE_ROOM];
    uint32_t length = 0;
    begin_side();
    send_file(Y_LENGTH);
    number_due(1);
    numbers[place] = forms[which].value;
    if (open_with(numbers, ROOM_SIZE).number != IND_ACCEPTED)
        return ind_says(IND_NUMBERS, 0);
    for (uint32_t i = 0; i < IND_PIECE_NUMBERS; i++) {
        if (i != place) {
            length += put_groups(piece + length, numbers[i], 0);
            continue;
        }
        memcpy(piece + length, forms[which].bytes, forms[which].size);
        length += forms[which].size;
    }
    piece[length++] = sent.bytes[0];
    return give_bytes(piece, length, ROOM_SIZE);
}

static void form_examples(void)
{
    for (size_t i = 0; i < sizeof forms / sizeof *forms; i++) {
        uint32_t due = forms[i].good ? IND_ACCEPTED : IND_PIECE;
        ensure(gives(give_form(i, IND_STATION_NUMBER), due, 0)
                   && gives(give_form(i, IND_VERSION_NUMBER), due, 0)
                   && gives(give_form(i, IND_TRAILER_NUMBER), due, 0),
               forms[i].sentence);
    }
}

/* The piece that is due with one number in so many more groups than it needs,
 * or 2^32 more. */
static int one_bad(uint32_t place, uint32_t more_groups, uint64_t more)
{
    uint8_t piece[PIECE_ROOM], shortest[PUT_GROUPS_MOST];
    uint32_t length = 0;
    if (!begin_with(Y_LENGTH, 50))
        return 0;
    number_due(20);
    for (uint32_t i = 0; i < IND_PIECE_NUMBERS; i++) {
        uint32_t groups = put_groups(shortest, numbers[i], 0);
        length += i == place ? put_groups(piece + length, numbers[i] + more,
                                          groups + more_groups)
                             : put_groups(piece + length, numbers[i], 0);
    }
    memcpy(piece + length, sent.bytes + 50, 20);
    return gives(give_bytes(piece, length + 20, ROOM_SIZE),
                 more + more_groups == 0 ? IND_ACCEPTED : IND_PIECE, 0);
}

/* The piece that is due with one number in five groups, none of which is its
 * last: the next number stands where a sixth would. */
static int one_endless(uint32_t place)
{
    uint8_t piece[PIECE_ROOM];
    uint32_t length = 0;
    if (!begin_with(Y_LENGTH, 50))
        return 0;
    number_due(20);
    for (uint32_t i = 0; i < IND_PIECE_NUMBERS; i++) {
        length += put_groups(piece + length, numbers[i],
                             i == place ? IND_GROUPS_MOST : 0);
        if (i == place)
            piece[length - 1] |= IND_GROUP_MORE;
    }
    memcpy(piece + length, sent.bytes + 50, 20);
    return gives(give_bytes(piece, length + 20, ROOM_SIZE), IND_PIECE, 0);
}

static void number_examples(void)
{
    static const char *const sentences[IND_PIECE_NUMBERS] = {
        "a bad number for the station: 19", "for the type: 19",
        "for the data version: 19",         "for the total: 19",
        "for the trailer: 19",              "for the start: 19",
        "for the count: 19"
    };
    for (uint32_t i = 0; i < IND_PIECE_NUMBERS; i++)
        ensure(one_bad(i, 0, 0) && one_bad(i, 1, 0) && one_bad(i, 2, 0)
                   && one_bad(i, 4, 0)
                   && one_bad(i, 0, (uint64_t)1 << 32)
                   && one_bad(i, 0, (uint64_t)7 << 32)
                   && one_bad(i, 0, (uint64_t)1 << 35) && one_endless(i),
               sentences[i]);
}

/* ---- pieces */

/* Cut off at every place, the piece that is due is 19, and so it is with one
 * byte more. */
static void cut_examples(void)
{
    uint8_t piece[PIECE_ROOM];
    uint32_t length, refused = 0;
    ensure(begin_with(Y_LENGTH, 50), "50 bytes of Y are taken");
    number_due(20);
    length = make_piece(piece, 20);
    for (uint32_t cut = 0; cut < length; cut++)
        refused += (uint32_t)gives(give_bytes(piece, cut, ROOM_SIZE), 19, 0);
    ensure(refused == length, "a piece cut off at any place: 19");
    piece[length] = sent.bytes[70];
    ensure(gives(give_bytes(piece, length + 1, ROOM_SIZE), 19, 0),
           "a piece with one byte more: 19");
    ensure(gives(give_bytes(NULL, 0, ROOM_SIZE), 19, 0),
           "a piece of no bytes at all: 19");
    ensure(give_bytes(piece, length, ROOM_SIZE).number == 0 && holds(70),
           "the piece itself is taken");
}

/* Of Y, with 50 bytes taken: one number of the piece that is due changed, how
 * many bytes follow, the room, and what is due. */
static const struct {
    uint32_t place;
    uint32_t value;
    uint32_t following;
    uint32_t room;
    uint32_t number;
    const char *sentence;
} pieces[] = {
    { IND_STATION_NUMBER, 1, 20, 300, 0, "the piece that is due" },
    { IND_STATION_NUMBER, 1, 20, 108, 0, "in room of just the total" },
    { IND_STATION_NUMBER, 1, 20, 109, 0, "in room of one byte more" },
    { IND_STATION_NUMBER, 1, 20, 107, 15, "in room of one byte less: 15" },
    { IND_STATION_NUMBER, 1, 20, 70, 15, "in room for the piece alone: 15" },
    { IND_STATION_NUMBER, 1, 20, 0, 15, "in no room: 15" },
    { IND_STATION_NUMBER, 2, 20, 300, 17, "another station: 17" },
    { IND_STATION_NUMBER, 65537, 20, 300, 17, "65,536 more: 17" },
    { IND_STATION_NUMBER, 129, 20, 300, 17, "128 more: 17" },
    { IND_STATION_NUMBER, 268435457, 20, 300, 17, "2^28 more: 17" },
    { IND_STATION_NUMBER, 0, 20, 300, 17, "station 0: 17" },
    { IND_TYPE_NUMBER, 1, 20, 300, 17, "another file type: 17" },
    { IND_TYPE_NUMBER, 258, 20, 300, 17, "256 more: 17" },
    { IND_VERSION_NUMBER, 2, 20, 300, 17, "another data version: 17" },
    { IND_VERSION_NUMBER, 16385, 20, 300, 17, "2^14 more: 17" },
    { IND_TOTAL_NUMBER, 109, 20, 300, 17, "another total: 17" },
    { IND_TOTAL_NUMBER, 107, 20, 300, 17, "a lower one: 17" },
    { IND_TOTAL_NUMBER, 65644, 20, 300, 17, "65,536 more: 17" },
    { IND_TRAILER_NUMBER, 0, 20, 300, 17, "another trailer: 17" },
    { IND_TRAILER_NUMBER, 4294967295, 20, 300, 17, "2^32 - 1 for it: 17" },
    { IND_START_NUMBER, 49, 20, 300, 18, "a start one lower: 18" },
    { IND_START_NUMBER, 51, 20, 300, 18, "a start one higher: 18" },
    { IND_START_NUMBER, 0, 20, 300, 18, "the first piece again: 18" },
    { IND_START_NUMBER, 70, 20, 300, 18, "the piece after the next: 18" },
    { IND_START_NUMBER, 108, 20, 300, 18, "a start at the total: 18" },
    { IND_START_NUMBER, 65586, 20, 300, 18, "65,536 more: 18" },
    { IND_START_NUMBER, 4294967295, 20, 300, 18, "2^32 - 1: 18" },
    { IND_COUNT_NUMBER, 19, 20, 300, 19, "a count one lower: 19" },
    { IND_COUNT_NUMBER, 21, 20, 300, 19, "a count one higher: 19" },
    { IND_COUNT_NUMBER, 0, 20, 300, 19, "a count of 0: 19" },
    { IND_COUNT_NUMBER, 276, 20, 300, 19, "256 more: 19" },
    { IND_COUNT_NUMBER, 65556, 20, 300, 19, "65,536 more: 19" },
    { IND_COUNT_NUMBER, 4294967295, 20, 300, 19, "a count of 2^32 - 1: 19" },
    { IND_COUNT_NUMBER, 0, 0, 300, 19, "a count of 0 and no bytes: 19" },
    { IND_COUNT_NUMBER, 20, 0, 300, 19, "a count of 20 and no bytes: 19" },
    { IND_COUNT_NUMBER, 1, 1, 300, 0, "one byte" },
    { IND_COUNT_NUMBER, 58, 58, 300, 0, "all that is due" },
    { IND_COUNT_NUMBER, 58, 58, 107, 15, "the same in too little room: 15" },
    { IND_COUNT_NUMBER, 59, 59, 300, 19, "one byte beyond the total: 19" },
    { IND_COUNT_NUMBER, 250, 250, 300, 19, "up to the room's end: 19" },
    /* The order. */
    { IND_COUNT_NUMBER, 59, 59, 107, 19, "beyond the total before room" },
    { IND_START_NUMBER, 49, 20, 0, 18, "the start before room" },
    { IND_START_NUMBER, 100, 20, 300, 18, "the start before the total" },
    { IND_STATION_NUMBER, 2, 20, 0, 17, "the identity before room" },
    { IND_TRAILER_NUMBER, 0, 59, 300, 19, "the count before the identity" },
    { IND_START_NUMBER, 49, 0, 300, 19, "no bytes before the start" }
};

/* The room has the file's bytes up to the next byte due, and else what it
 * had. */
static void piece_examples(void)
{
    for (size_t i = 0; i < sizeof pieces / sizeof *pieces; i++) {
        int right = begin_with(Y_LENGTH, 50);
        number_due(pieces[i].place == IND_COUNT_NUMBER ? 0 : 20);
        numbers[pieces[i].place] = pieces[i].value;
        right = right
            && gives(give_numbers(pieces[i].following, pieces[i].room),
                     pieces[i].number, 0)
            && holds(pieces[i].number == 0 ? 50 + pieces[i].following : 50);
        ensure(right, pieces[i].sentence);
    }
}

/* Numbers of a piece of Y with two or three faults, and what is due. */
static void order_examples(void)
{
    ensure(begin_with(Y_LENGTH, 50), "50 bytes of Y are taken");
    number_due(20);
    numbers[IND_VERSION_NUMBER] = 2;
    numbers[IND_START_NUMBER] = 49;
    ensure(gives(give_numbers(20, 0), 17, 0),
           "another identity before a wrong start and room");
    numbers[IND_COUNT_NUMBER] = 21;
    ensure(gives(give_numbers(20, 0), 19, 0),
           "a wrong count before another identity");
    numbers[IND_COUNT_NUMBER] = 65556;
    ensure(gives(give_numbers(20, ROOM_SIZE), 19, 0),
           "so is a count that is 65,536 more");
    number_due(60);
    numbers[IND_TYPE_NUMBER] = 1;
    ensure(gives(give_numbers(60, ROOM_SIZE), 17, 0),
           "another identity before bytes beyond the total");
    number_due(60);
    numbers[IND_START_NUMBER] = 51;
    ensure(gives(give_numbers(60, 0), 18, 0),
           "a wrong start before bytes beyond the total and room");
    begin_side();
    number_due(20);
    ensure(gives(give_numbers(20, 0), 17, 0),
           "nothing opened: 17, before room");
    numbers[IND_START_NUMBER] = 5;
    ensure(gives(give_numbers(20, ROOM_SIZE), 17, 0),
           "nothing opened, before a wrong start");
    numbers[IND_COUNT_NUMBER] = 21;
    ensure(gives(give_numbers(20, ROOM_SIZE), 19, 0),
           "a wrong count before nothing opened");
    memset(numbers, 0, sizeof numbers);
    numbers[IND_COUNT_NUMBER] = 1;
    ensure(gives(give_numbers(1, ROOM_SIZE), 17, 0),
           "nothing opened, and an identity of zeros: 17");
}

/* ---- whole files */

/* A file in pieces of so many bytes, and the last of fewer: taken and accepted,
 * with finishing too early before each. */
static int sent_in(uint32_t length, uint32_t count)
{
    int right = begin_with(length, 0);
    for (uint32_t at = 0; right && at < length; at += count) {
        uint32_t rest = length - at;
        right = gives(finish_in(ROOM_SIZE), 18, 0)
            && give_due(rest < count ? rest : count).number == IND_ACCEPTED;
    }
    before = now;
    return right && holds(length) && gives(finish_in(length), 0, 0)
        && gives(finish_in(ROOM_SIZE), 0, 0)
        && memcmp(&now, &before, sizeof now) == 0;
}

/* In pieces of every size; of all sizes each is accepted. */
static int sent_in_all(uint32_t length)
{
    for (uint32_t count = 1; count <= length; count++)
        if (!sent_in(length, count))
            return 0;
    return 1;
}

static void whole_examples(void)
{
    ensure(sent_in_all(ONE_LENGTH), "an X.1 in pieces of every size");
    ensure(sent_in_all(HIGH_LENGTH), "an X.1 with heights so");
    ensure(sent_in_all(Y_LENGTH), "an X.2 so");
    ensure(begin_with(Y_LENGTH, 108) && gives(give_due(1), 19, 0)
               && gives(finish_in(108), 0, 0),
           "after the last byte a further piece at the total is 19");
    number_due(20);
    numbers[IND_START_NUMBER] = 88;
    ensure(gives(give_numbers(20, ROOM_SIZE), 18, 0)
               && gives(finish_in(108), 0, 0),
           "the last piece once more is 18");
    number_due(1);
    ensure(gives(give_numbers(1, 0), 19, 0), "beyond the total before room");
}

/* ---- finishing */

static void finish_examples(void)
{
    begin_side();
    ensure(gives(finish_in(ROOM_SIZE), 18, 0), "nothing opened: 18");
    ensure(gives(finish_in(0), 18, 0), "nothing opened, before room: 18");
    ensure(begin_with(Y_LENGTH, 0) && gives(finish_in(108), 18, 0),
           "just opened: 18");
    ensure(begin_with(Y_LENGTH, 107) && gives(finish_in(108), 18, 0),
           "one byte early: 18");
    ensure(gives(finish_in(107), 18, 0), "early, before room: 18");
    ensure(begin_with(Y_LENGTH, 108) && gives(finish_in(107), 15, 0)
               && gives(finish_in(0), 15, 0) && gives(finish_in(108), 0, 0)
               && gives(finish_in(109), 0, 0),
           "room under the total: 15, and after that accepted");
    now.room[99] = 57;
    ensure(gives(finish_in(108), 2, 104), "a byte changed: 2 at End");
}

/* A change of what is sent, or of the identity that it is sent under; and what
 * finishing gives. */
static const struct {
    uint32_t length;
    uint32_t file_place;
    uint32_t file_value;
    uint32_t place;
    uint32_t value;
    uint32_t number;
    uint32_t at;
    const char *sentence;
} ends[] = {
    { 108, 3, 1, IND_STATION_NUMBER, 1, 0, 0, "Y under its own identity" },
    { 108, 3, 1, IND_STATION_NUMBER, 2, 17, 0, "another station: 17" },
    { 108, 3, 1, IND_STATION_NUMBER, 65537, 17, 0, "65,537: 17" },
    { 108, 3, 1, IND_STATION_NUMBER, 70000, 17, 0, "70,000: 17" },
    { 108, 3, 1, IND_STATION_NUMBER, 257, 17, 0, "257: 17" },
    { 108, 3, 1, IND_VERSION_NUMBER, 2, 17, 0, "another version: 17" },
    { 108, 3, 1, IND_VERSION_NUMBER, 65537, 17, 0, "65,537: 17" },
    { 108, 3, 1, IND_TRAILER_NUMBER, 0, 17, 0, "another trailer: 17" },
    { 108, 3, 2, IND_VERSION_NUMBER, 2, 0, 0, "version 2 of Y" },
    { 108, 3, 2, IND_VERSION_NUMBER, 1, 17, 0, "version 2 as version 1: 17" },
    { 108, 5, 312, IND_STATION_NUMBER, 312, 0, 0, "station 312" },
    { 108, 3, 1, IND_TYPE_NUMBER, 1, 3, 0, "Y as an X.1: 3 at 0" },
    { 68, 3, 1, IND_STATION_NUMBER, 1, 0, 0, "an X.1 under its own" },
    { 68, 3, 1, IND_VERSION_NUMBER, 3, 17, 0, "another version: 17" },
    { 68, 3, 1, IND_TRAILER_NUMBER, 4294967295, 17, 0, "its trailer: 17" },
    { 72, 3, 1, IND_STATION_NUMBER, 1, 0, 0, "an X.1 with heights" },
    { 72, 3, 1, IND_TYPE_NUMBER, 2, 3, 0, "the same as an X.2: 3 at 0" },
    { 72, 1, 3, IND_STATION_NUMBER, 1, 4, 1, "structure version 3: 4 at 1" },
    { 68, 1, 2, IND_STATION_NUMBER, 1, 1, 0, "68 bytes of version 2: 1" },
    { 108, 1, 2, IND_STATION_NUMBER, 1, 4, 1, "Y of version 2: 4 at 1" },
    { 108, 3, 0, IND_VERSION_NUMBER, 0, 5, 3, "data version 0: 5 at 3" },
    { 108, 3, 0, IND_STATION_NUMBER, 9, 5, 3,
      "the reader's own fault before 17" },
    { 108, 99, 57, IND_STATION_NUMBER, 1, 8, 99, "reverse link 57: 8 at 99" },
    { 108, 99, 56, IND_TRAILER_NUMBER, 5, 9, 69, "a link not returned: 9" },
    { 68, 36, 50, IND_STATION_NUMBER, 1, 6, 36, "last offset 50: 6 at 36" }
};

/* The file so changed, sent in two pieces under that identity in opening and
 * pieces alike. */
static int ends_so(size_t which)
{
    uint32_t first = 30;
    int right;
    begin_side();
    send_file(ends[which].length);
    put_two(sent.bytes, ends[which].file_place, ends[which].file_value);
    seal(&sent);
    number_due(first);
    numbers[ends[which].place] = ends[which].value;
    right = open_with(numbers, ROOM_SIZE).number == IND_ACCEPTED
        && give_numbers(first, ROOM_SIZE).number == IND_ACCEPTED;
    numbers[IND_START_NUMBER] = first;
    numbers[IND_COUNT_NUMBER] = sent.length - first;
    right = right
        && give_numbers(sent.length - first, ROOM_SIZE).number
            == IND_ACCEPTED;
    before = now;
    return right && holds(sent.length)
        && gives(finish_in(sent.length), ends[which].number, ends[which].at)
        && gives(finish_in(ROOM_SIZE), ends[which].number, ends[which].at)
        && memcmp(&now, &before, sizeof now) == 0;
}

static void end_examples(void)
{
    for (size_t i = 0; i < sizeof ends / sizeof *ends; i++)
        ensure(ends_so(i), ends[i].sentence);
}

/* ---- the incident: the head of one version, the tail of the next */

static void make_version(uint32_t version)
{
    send_file(Y_LENGTH);
    put_two(sent.bytes, IND_DATA_VERSION_PLACE, version);
    seal(&sent);
}

/* Version 1 is opened, and 60 bytes of it are taken; what is sent after that is
 * version 2, from there on. */
static int half_way(void)
{
    int right = begin_with(Y_LENGTH, 60);
    make_version(2);
    return right;
}

static void incident_examples(void)
{
    uint32_t first[IND_IDENTITY_NUMBERS];
    ensure(half_way() && gives(give_due(48), 17, 0)
               && gives(finish_in(108), 18, 0),
           "the tail of version 2 under its own identity: 17, and 18");
    send_file(Y_LENGTH);
    ensure(give_due(48).number == 0 && holds(108)
               && gives(finish_in(108), 0, 0),
           "broken off and resumed with version 1: accepted");
    ensure(half_way(), "60 bytes of version 1");
    send_file(Y_LENGTH);
    number_due(48);
    make_version(2);
    ensure(give_numbers(48, ROOM_SIZE).number == 0
               && gives(finish_in(108), 2, 104),
           "the tail of version 2 under the identity of version 1: taken, and "
           "2 at the end");
    send_file(Y_LENGTH);
    identity_of(sent.bytes, sent.length, first);
    begin_side();
    make_version(2);
    memcpy(numbers, first, sizeof first);
    numbers[IND_START_NUMBER] = 0;
    numbers[IND_COUNT_NUMBER] = 108;
    ensure(open_with(first, 108).number == 0
               && give_numbers(108, 108).number == 0
               && gives(finish_in(108), 17, 0),
           "all of version 2 under the identity of version 1: 17 at the end");
    ensure(half_way(), "60 bytes of version 1");
    number_due(48);
    ensure(open_with(numbers, 108).number == 0
               && gives(give_numbers(48, 108), 18, 0)
               && give_due(108).number == 0 && holds(108)
               && gives(finish_in(108), 0, 0),
           "opened anew with version 2: the tail is 18, the whole accepted");
}

/* ---- the form of the cases */

static asked given;

static void put_call(uint32_t kind, uint32_t lent, const uint8_t *bytes,
                     uint32_t length)
{
    load_call call = { kind, lent, bytes, length };
    add_call(&given.calls, &call);
}

static void put_open(uint32_t lent)
{
    uint8_t bytes[OPENING_SIZE];
    for (uint32_t i = 0; i < IND_IDENTITY_NUMBERS; i++)
        put_four(bytes, OPENING_NUMBER_SIZE * i, numbers[i]);
    put_call(CALL_OPEN, lent, bytes, sizeof bytes);
}

static void put_piece(uint32_t start, uint32_t count, uint32_t lent)
{
    uint8_t piece[PIECE_ROOM];
    uint32_t length;
    numbers[IND_START_NUMBER] = start;
    numbers[IND_COUNT_NUMBER] = count;
    length = make_piece(piece, count);
    put_call(CALL_PIECE, lent, piece, length);
}

/* A case of load about Y, with room of so many bytes and no calls yet. */
static void ask_calls(uint32_t room)
{
    memset(given.numbers, 0, sizeof given.numbers);
    given.question = ASK_LOAD;
    given.numbers[LOAD_ROOM] = room;
    given.files[0].length = given.files[1].length = 0;
    given.calls.length = 0;
    now.transfer.due = 0;
    send_file(Y_LENGTH);
    number_due(0);
}

/* Whether the case prints these lines, then this next byte due, and the
 * checksum of a room that begins with so many bytes of the file. */
static int case_prints(const char *lines, uint32_t due, uint32_t bytes)
{
    static uint8_t room[LOAD_ROOM_MOST];
    char text[400];
    posed ask = pose(&given);
    memset(room, LOAD_ROOM_BYTE, sizeof room);
    memcpy(room, sent.bytes, bytes);
    snprintf(text, sizeof text, "%sdue %lu\nroom %lu\n", lines,
             (unsigned long)due,
             (unsigned long)ind_checksum(room, given.numbers[LOAD_ROOM]));
    return prints(&ask, text);
}

static void case_examples(void)
{
    ask_calls(0);
    ensure(case_prints("", 0, 0), "no call, and no room");
    ask_calls(108);
    put_call(CALL_FINISH, 108, NULL, 0);
    put_open(200);
    put_piece(0, 50, 108);
    put_piece(50, 58, 107);
    put_piece(50, 58, 4294967295);
    put_call(CALL_FINISH, 108, sent.bytes, 3);
    put_call(CALL_FINISH, 0, NULL, 0);
    ensure(case_prints("18 0\n0 0\n0 0\n15 0\n0 0\n0 0\n15 0\n", 108, 108),
           "Y in two pieces, with more lent than the room has");
    ask_calls(107);
    put_open(4294967295);
    put_piece(0, 50, 107);
    ensure(case_prints("15 0\n17 0\n", 0, 0),
           "a room of 107 bytes, however much is lent");
    ask_calls(65536);
    put_open(108);
    put_piece(0, 50, 65536);
    given.files[1].length = 5;
    ensure(case_prints("0 0\n0 0\n", 50, 50),
           "the largest room; the second string is passed over");
}

/* A case as it is written, with so many bytes cut off, is read so. */
static reading reread(uint32_t cut)
{
    static uint8_t bytes[1000];
    static asked ask;
    FILE *kept = tmpfile(), *shorter = tmpfile();
    reading got = READ_NOTHING_MORE;
    if (kept != NULL && shorter != NULL) {
        size_t length;
        write_case(kept, &given);
        rewind(kept);
        length = fread(bytes, 1, sizeof bytes, kept);
        fwrite(bytes, 1, length - cut, shorter);
        rewind(shorter);
        got = read_case(shorter, &ask);
        if (got == READ_WHOLE && given.calls.length > 0
            && (ask.calls.length != given.calls.length
                || memcmp(ask.calls.bytes, given.calls.bytes,
                          ask.calls.length) != 0))
            got = READ_NOTHING_MORE;
    }
    if (kept != NULL)
        fclose(kept);
    if (shorter != NULL)
        fclose(shorter);
    return got;
}

/* A sequence of these bytes is read so. */
static reading reads(const uint8_t *bytes, uint32_t length)
{
    ask_calls(108);
    add_bytes(&given.calls, bytes, length);
    return reread(0);
}

static void bad_case_examples(void)
{
    static const uint8_t finish[] = { 3, 0, 0, 0, 0, 0, 0, 0, 0 };
    static const uint8_t unknown[] = { 4, 0, 0, 0, 0, 0, 0, 0, 0 };
    static const uint8_t nothing[] = { 0, 0, 0, 0, 0, 0, 0, 0, 0 };
    static const uint8_t too_long[] = { 2, 0, 0, 0, 0, 1, 0, 2, 0 };
    static const uint8_t huge[] = { 2, 0, 0, 0, 0, 255, 255, 255, 255 };
    static const uint8_t beyond[] = { 3, 0, 0, 0, 0, 2, 0, 0, 0, 7 };
    static const uint8_t opening[29] = { 1, 0, 0, 0, 0, 20 };
    static const uint8_t short_one[28] = { 1, 0, 0, 0, 0, 19 };
    ensure(reads(finish, 9) == READ_WHOLE && reads(NULL, 0) == READ_WHOLE
               && reads(opening, 29) == READ_WHOLE,
           "a finishing, no call, and an opening of 20 bytes are read");
    ensure(reads(unknown, 9) == READ_BAD_CALLS
               && reads(nothing, 9) == READ_BAD_CALLS,
           "an unknown call is bad input");
    ensure(reads(short_one, 28) == READ_BAD_CALLS
               && reads(opening, 28) == READ_BAD_CALLS,
           "so is an opening of 19 bytes, or one cut off");
    ensure(reads(finish, 8) == READ_BAD_CALLS
               && reads(finish, 1) == READ_BAD_CALLS
               && reads(beyond, 10) == READ_BAD_CALLS
               && reads(too_long, 9) == READ_BAD_CALLS
               && reads(huge, 9) == READ_BAD_CALLS,
           "so is a sequence that ends inside a call, or too long a call");
    ask_calls(65537);
    ensure(reread(0) == READ_LARGE_ROOM, "so is a room of 65,537 bytes");
    ask_calls(65536);
    put_open(65536);
    ensure(reread(0) == READ_WHOLE && reread(1) == READ_CUT_OFF,
           "one of 65,536 is not; a case that is cut off is");
}

/* Sequences of more than 65,536 bytes: the largest call that there may be, one
 * byte more, and many calls. */
static void long_examples(void)
{
    static uint8_t zeros[CALL_BYTES_MOST + 1];
    posed ask;
    ask_calls(0);
    put_call(CALL_PIECE, 0, zeros, CALL_BYTES_MOST);
    ask = pose(&given);
    ensure(are_calls(ask.bytes[0], ask.length[0])
               && case_prints("19 0\n", 0, 0),
           "a piece of 131,072 bytes, all 0");
    ask_calls(0);
    put_call(CALL_PIECE, 0, zeros, CALL_BYTES_MOST + 1);
    ensure(!are_calls(given.calls.bytes, given.calls.length),
           "one byte more is bad input");
    ask_calls(108);
    for (int i = 0; i < 10000; i++)
        put_call(CALL_FINISH, 0, NULL, 0);
    ensure(are_calls(given.calls.bytes, given.calls.length),
           "ten thousand calls");
}

/* ---- the commands */

/* Loads what was kept under the identity of Y, one number of it changed, and
 * what is said. */
static int loads(FILE *kept, uint32_t place, uint64_t value, int accepted,
                 const char *due)
{
    uint64_t identity[IND_IDENTITY_NUMBERS];
    uint8_t bytes[ROOM_SIZE];
    FILE *output = tmpfile(), *said = tmpfile();
    int right;
    send_file(Y_LENGTH);
    number_due(0);
    for (uint32_t i = 0; i < IND_IDENTITY_NUMBERS; i++)
        identity[i] = i == place ? value : numbers[i];
    if (kept == NULL || output == NULL || said == NULL)
        return 0;
    rewind(kept);
    right = load_pieces(kept, output, said, identity) == accepted;
    rewind(output);
    right = right
        && fread(bytes, 1, sizeof bytes, output)
            == (accepted ? sent.length : 0)
        && (!accepted || memcmp(bytes, sent.bytes, sent.length) == 0);
    fclose(output);
    fclose(kept);
    return printed(said, due) && right;
}

/* The pieces of Y, so many bytes each, of which some at the end are cut off. */
static FILE *split_y(uint32_t most, uint32_t cut)
{
    static uint8_t bytes[5000];
    FILE *kept = tmpfile(), *shorter = tmpfile();
    size_t length;
    if (kept == NULL || shorter == NULL)
        return NULL;
    send_file(Y_LENGTH);
    print_pieces(kept, sent.bytes, sent.length, most);
    rewind(kept);
    length = fread(bytes, 1, sizeof bytes, kept);
    fclose(kept);
    fwrite(bytes, 1, length - cut, shorter);
    return shorter;
}

#define LATE "18 at 0: nothing opened, or bytes still due\n"
#define BAD_PIECE                                                            \
    "19: a bad number, no bytes, a wrong byte count or bytes beyond the "    \
    "total\n"
#define NOT_OPENED "17: nothing opened, or another identity\n"

static void command_examples(void)
{
    ensure(loads(split_y(40, 0), 0, 1, 1,
                 "end: 3 of 3 pieces taken, 108 of 108 bytes, file printed\n"),
           "Y split into three pieces, and loaded");
    ensure(loads(split_y(1, 0), 0, 1, 1,
                 "end: 108 of 108 pieces taken, 108 of 108 bytes, file "
                 "printed\n")
               && loads(split_y(4294967295, 0), 0, 1, 1,
                        "end: 1 of 1 pieces taken, 108 of 108 bytes, file "
                        "printed\n"),
           "split into single bytes, and into one piece");
    ensure(loads(split_y(60, 1), 0, 1, 0,
                 "piece 2 refused " BAD_PIECE "finishing refused " LATE
                 "end: 1 of 2 pieces taken, 60 of 108 bytes, nothing "
                 "printed\n"),
           "a last piece that is cut off is handed on as it came");
    ensure(loads(split_y(100, 21), 0, 1, 0,
                 "piece 2 refused " BAD_PIECE "finishing refused " LATE
                 "end: 1 of 2 pieces taken, 100 of 108 bytes, nothing "
                 "printed\n"),
           "an end inside a length is a piece of no bytes");
    ensure(loads(split_y(100, 23), 0, 1, 0,
                 "finishing refused " LATE
                 "end: 1 of 1 pieces taken, 100 of 108 bytes, nothing "
                 "printed\n"),
           "an end before a length is no piece");
}

static void other_identity_examples(void)
{
    ensure(loads(split_y(60, 0), IND_VERSION_NUMBER, 2, 0,
                 "piece 1 refused " NOT_OPENED "piece 2 refused " NOT_OPENED
                 "finishing refused " LATE
                 "end: 0 of 2 pieces taken, 0 of 108 bytes, nothing "
                 "printed\n"),
           "pieces of another version");
    ensure(loads(split_y(60, 0), IND_TYPE_NUMBER, 3, 0,
                 "opening refused 13: question out of range\n"
                 "end: 0 of 0 pieces taken, 0 of 108 bytes, nothing "
                 "printed\n")
               && loads(split_y(60, 0), IND_TOTAL_NUMBER, 65536, 0,
                        "opening refused 15: no room\n"
                        "end: 0 of 0 pieces taken, 0 of 65536 bytes, nothing "
                        "printed\n")
               && loads(split_y(60, 0), IND_STATION_NUMBER, 4294967296, 0,
                        "opening refused 13: question out of range\n"
                        "end: 0 of 0 pieces taken, 0 of 108 bytes, nothing "
                        "printed\n"),
           "a refused opening, after which no piece is read");
}

/* ---- generated cases */

/* Which numbers the calls of each kind have. */
static void cover_examples(void)
{
    enum { SEED = 6, CASES = 2000 };
    static asked ask;
    static loading of;
    generation run = { SEED, 0, CASES, { { [ASK_LOAD] = 1 }, 1 } };
    uint32_t seen[CALL_KINDS] = { 0 };
    const uint32_t faults = (1u << IND_STATION) - 1;
    for (uint64_t i = run.first; i < run.end; i++) {
        load_call call;
        posed posed_case;
        build_case(&run, i, &ask);
        posed_case = pose(&ask);
        begin_loading(&of, &posed_case);
        while (next_call(&of, &call))
            seen[call.kind] |= 1u << make_call(&of, &call).number;
    }
    ensure(seen[CALL_OPEN]
               == (1u | 1u << IND_OUT_OF_RANGE | 1u << IND_ROOM),
           "generated openings have each number");
    ensure(seen[CALL_PIECE]
               == (1u | 1u << IND_ROOM | 1u << IND_IDENTITY | 1u << IND_ORDER
                   | 1u << IND_PIECE),
           "so have pieces");
    ensure(seen[CALL_FINISH]
               == (faults | 1u << IND_ROOM | 1u << IND_IDENTITY
                   | 1u << IND_ORDER),
           "so has finishing, with each of the reader's own");
}

void load_examples(void)
{
    opening_examples();
    form_examples();
    number_examples();
    cut_examples();
    piece_examples();
    order_examples();
    whole_examples();
    finish_examples();
    end_examples();
    incident_examples();
    case_examples();
    bad_case_examples();
    long_examples();
    command_examples();
    other_identity_examples();
    cover_examples();
}
