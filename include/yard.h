/* The station files of T/VSTR 021-2024, for C and for whatever can call C: track geography (X.1) and fixed application data (X.2). Verdicts
 * of a file and of a pair, and the questions on them: header, track, point, coordinate, these two in degrees, record, routes, and what lies
 * ahead; and a loader, which gathers a file from pieces and joins no two versions. The library is libyard.a; tools/library makes it, for x86-64
 * Linux, and lays it out beside this header in target/libyard. Nothing else is linked with it.
 *
 * An X.1 has structure version 1 or 2. In version 2 each point has a height at its end, and so 15 bytes for 13; all else is alike. Every
 * function on an X.1 takes both, but for yard_x1_version_1. An X.2 has structure version 1.
 *
 * What every function has in common
 *
 * - A file, a list of lies, a piece, and every output, is a pointer to bytes and after it their number. The pointer needs no alignment. Where
 *   the number is 0 the pointer may be null, and the answer is that of any other pointer. Otherwise it points to so many bytes, which no one
 *   changes during the call; an output overlaps no other argument.
 * - No byte outside these is read or written. Nothing is kept between calls and nothing is shared, so that calls may run at the same time.
 *   There is no heap, and every call returns. A call takes at most 14 KB of stack on an X.1, 22 KB on an X.2 and 25 KB on a pair;
 *   yard_routes takes at most 250 KB at limit 512, some 400 bytes for each turnout that a walk enters at the front. yard_routes_flat takes
 *   no more than any other call on an X.2, 22 KB at every limit; once the file is judged the engine itself takes 7.3 KB: the path 1 KB, the
 *   open choices 2 KB, the marks of the test for a repeat 4 KB. tools/stack measures it, and tools/calls bounds it by the code.
 * - A function other than yard_checksum returns one number, made of the answer's number, its file and its place: take it apart by
 *   YARD_NUMBER, YARD_FILE and YARD_PLACE. Number 0 is accepted or answered. Any other is a refusal, with the byte place that it is about. That
 *   of yard_ahead has two parts more, YARD_STOP and YARD_OBJECTS; they are 0 in every other function's.
 * - An answer's values are put at the start of the output, four bytes each and low byte first, negative ones in two's complement: read them
 *   by yard_unsigned and yard_signed. A binary64 is two values, the low four bytes of its bits and then the high four, and so eight bytes, low
 *   byte first: read it by yard_double. The bytes of the output after the values are left as they were.
 * - A refusal leaves every byte of every output as it was. An output that is too short for the values is refused by YARD_ROOM at place 0,
 *   after every other refusal.
 * - Positions are in centimetres, heights in decimetres, latitude and longitude in milliarcseconds unless they are said to be in degrees,
 *   indexes count from 0, and a place is a byte's distance from the file's start. */
#ifndef YARD_H
#define YARD_H

#include <stddef.h>
#include <stdint.h>
#include <string.h>

#ifdef __cplusplus
extern "C" {
#endif

/* ---- the returned number */

/* Why, or YARD_ANSWERED: one of enum yard_number. */
#define YARD_NUMBER(answer) ((unsigned)((answer) & 0xFF))

/* Which file of a pair is at fault: 1 the X.1, 2 the X.2; 0 where the pair is accepted. So it is of yard_pair and of yard_ahead; in the answer of
 * every other function it is 0. */
#define YARD_FILE(answer) ((unsigned)((answer) >> 8 & 0xFF))

/* The place of the fault; 0 where there is none, and where the question itself is refused. */
#define YARD_PLACE(answer) ((uint32_t)((answer) >> 16 & 0xFFFFFFFF))

/* The numbers, in the order in which they are judged. The length is judged twice: the second time, after YARD_STRUCTURE, that of an X.1 of
 * structure version 2. */
enum yard_number {
    YARD_ANSWERED = 0,   /* accepted or answered */
    YARD_LENGTH = 1,     /* length under 68 (X.1), under 69 (X.2), or over 65,535; length under 72 (X.1 of structure version 2) */
    YARD_CHECKSUM = 2,   /* the checksum differs */
    YARD_FILE_TYPE = 3,  /* wrong file type */
    YARD_STRUCTURE = 4,  /* structure version not 1 or 2 (X.1), not 1 (X.2) */
    YARD_LAYOUT = 6,     /* layout */
    YARD_FIELD = 5,      /* a field outside its values */
    YARD_AGREEMENT = 7,  /* agreement; also a balise out of sequence in its group, at its group byte */
    YARD_TARGET = 8,     /* link target wrong */
    YARD_RETURN = 9,     /* link not returned, the second of a doubled link, or a link unlike that of the balise before it in its group */
    YARD_STATION = 10,   /* of a pair: stations differ */
    YARD_TRACK = 11,     /* track not in the X.1 */
    YARD_POSITION = 12,  /* position beyond the track's end */
    YARD_QUESTION = 13,  /* question out of range */
    YARD_STEPS = 14,     /* too many steps */
    YARD_ROOM = 15,      /* no room */
    YARD_KINDS = 16,     /* a bad list of kinds; no function of this header answers it */
    YARD_IDENTITY = 17,  /* of a transfer: nothing is opened, or the identity is another one */
    YARD_ORDER = 18,     /* of a transfer: not the next byte due, or finished with nothing opened or too early */
    YARD_PIECE = 19      /* of a transfer: a piece with a bad number, no bytes, a wrong byte count or bytes beyond the total */
};

/* ---- values in an output */

/* How many bytes a value has. */
#define YARD_VALUE_SIZE 4

/* The value of an index in an output that an answer was put in. */
static inline uint32_t yard_unsigned(const uint8_t *out, size_t index)
{
    const uint8_t *at = out + YARD_VALUE_SIZE * index;
    return (uint32_t)at[0] | (uint32_t)at[1] << 8 | (uint32_t)at[2] << 16 | (uint32_t)at[3] << 24;
}

/* The same of a value that may be negative. */
static inline int32_t yard_signed(const uint8_t *out, size_t index)
{
    uint32_t value = yard_unsigned(out, index);
    return value <= INT32_MAX ? (int32_t)value : -1 - (int32_t)(UINT32_MAX - value);
}

/* The binary64 that stands at the values of an index and of the next one: eight bytes, low byte first. A double has to be a binary64, as it is
 * on every machine that the library is made for. */
static inline double yard_double(const uint8_t *out, size_t index)
{
    uint64_t bits = (uint64_t)yard_unsigned(out, index + 1) << 32 | yard_unsigned(out, index);
    double number;
    memcpy(&number, &bits, sizeof number);
    return number;
}

/* The 16-bit word of an index in the words of a list of routes, or among the objects ahead. */
static inline unsigned yard_word(const uint8_t *words, size_t index)
{
    return words[2 * index] | (unsigned)words[2 * index + 1] << 8;
}

/* ---- checksum and verdicts */

/* The checksum (6.6) of so many bytes. A file's own stands in its last four bytes, low byte first, and covers all before them. */
uint32_t yard_checksum(const uint8_t *bytes, size_t bytes_length);

/* The verdict of an X.1, and of an X.2. */
uint64_t yard_x1(const uint8_t *file, size_t file_length);
uint64_t yard_x2(const uint8_t *file, size_t file_length);

/* The verdict that a reader of structure version 1 alone gives an X.1. A file of version 2 whose length is 68 to 65,535 and whose checksum
 * and type are right is refused by YARD_STRUCTURE at place 1; of every other file the verdict is that of yard_x1. */
uint64_t yard_x1_version_1(const uint8_t *file, size_t file_length);

/* The verdict of a station's two files, the X.1 first: the X.1's fault, then the X.2's, then what they do not agree in. */
uint64_t yard_pair(const uint8_t *first, size_t first_length, const uint8_t *second, size_t second_length);

/* ---- questions on an X.1: each first gives the file's own fault */

/* The header up to the station's number. */
uint64_t yard_header1(const uint8_t *file, size_t file_length, uint8_t *out, size_t out_length);

enum yard_header1_value {
    YARD_HEADER1_STRUCTURE, /* structure version, 1 or 2 */
    YARD_HEADER1_DATA,      /* data version, 1 to 65,535 */
    YARD_HEADER1_STATION,   /* the station's number, 1 to 65,535 */
    YARD_HEADER1_VALUES
};

#define YARD_HEADER1_SIZE 12

/* The track of an index: its entry in table 2, and how many points it has. No such track: YARD_QUESTION. */
uint64_t yard_track(const uint8_t *file, size_t file_length, size_t index, uint8_t *out, size_t out_length);

enum yard_track_value {
    YARD_TRACK_NUMBER,          /* the track's number, 1 to 255 */
    YARD_TRACK_PROPERTY,        /* 1 to 5 */
    YARD_TRACK_START_POSITION,  /* 0 */
    YARD_TRACK_START_LATITUDE,  /* signed */
    YARD_TRACK_START_LONGITUDE, /* signed */
    YARD_TRACK_END_POSITION,
    YARD_TRACK_END_LATITUDE,    /* signed */
    YARD_TRACK_END_LONGITUDE,   /* signed */
    YARD_TRACK_FIRST_OFFSET,    /* the place of its first point */
    YARD_TRACK_LAST_OFFSET,     /* the place of its last point */
    YARD_TRACK_POINTS,          /* how many points it has */
    YARD_TRACK_VALUES
};

#define YARD_TRACK_SIZE 44

/* The point of an index in the track of an index. No such track or no such point: YARD_QUESTION. A point of an X.1 of structure version 2
 * has a height, and one of version 1 has none. */
uint64_t yard_point(const uint8_t *file, size_t file_length, size_t track, size_t index, uint8_t *out, size_t out_length);

enum yard_point_value {
    YARD_POINT_POSITION,
    YARD_POINT_LATITUDE,   /* signed: what is added to the latitude of the track's start */
    YARD_POINT_LONGITUDE,  /* signed: the same of the longitude */
    YARD_POINT_HEADING,    /* signed, -31416 to 31416 */
    YARD_POINT_NEAR,       /* the near flag, 0 or 1 */
    YARD_POINT_HAS_HEIGHT, /* 1 where it has a height, 0 where it has none */
    YARD_POINT_HEIGHT,     /* signed, -32768 to 32767; 0 where it has none */
    YARD_POINT_VALUES
};

#define YARD_POINT_SIZE 28

/* The coordinate at a position of the track with a number: exact to the nearest milliarcsecond, a half going north and east. No track of
 * that number: YARD_TRACK. A position beyond the track's end: YARD_POSITION. Both at place 0. */
uint64_t yard_coordinate(const uint8_t *file, size_t file_length, size_t number, size_t position, uint8_t *out, size_t out_length);

enum yard_coordinate_value {
    YARD_COORDINATE_LATITUDE,  /* signed */
    YARD_COORDINATE_LONGITUDE, /* signed */
    YARD_COORDINATE_VALUES
};

#define YARD_COORDINATE_SIZE 8

/* The same coordinate in degrees, for a drawing program. The milliarcseconds remain the record and stand first; beside them stand latitude and
 * longitude in degrees, each a binary64: the whole number of milliarcseconds divided once by 3,600,000, to the nearest, a tie to the even one.
 * Whole degrees are exact. Read them by yard_double. Refusals are those of yard_coordinate. */
uint64_t yard_degrees(const uint8_t *file, size_t file_length, size_t number, size_t position, uint8_t *out, size_t out_length);

/* The same of the point of an index in the track of an index: its coordinate is that of the track's start plus its own increments. Refusals are
 * those of yard_point. */
uint64_t yard_point_degrees(const uint8_t *file, size_t file_length, size_t track, size_t index, uint8_t *out, size_t out_length);

/* The values of both. */
enum yard_degrees_value {
    YARD_DEGREES_LATITUDE,              /* signed, in milliarcseconds */
    YARD_DEGREES_LONGITUDE,             /* signed, in milliarcseconds */
    YARD_DEGREES_LATITUDE_DEGREES,      /* a binary64: this value and the next one */
    YARD_DEGREES_LONGITUDE_DEGREES = 4, /* a binary64: this value and the next one */
    YARD_DEGREES_VALUES = 6
};

#define YARD_DEGREES_SIZE 24

/* ---- questions on an X.2: each first gives the file's own fault */

/* The header up to the station's name. The name is GB 18030 text, two bytes for each character; zeros fill the rest of its 16 bytes. */
uint64_t yard_header2(const uint8_t *file, size_t file_length, uint8_t *out, size_t out_length);

enum yard_header2_value {
    YARD_HEADER2_STRUCTURE,  /* structure version, 1 */
    YARD_HEADER2_DATA,       /* data version, 1 to 65,535 */
    YARD_HEADER2_STATION,    /* the station's number, 1 to 65,535 */
    YARD_HEADER2_NAME,       /* the place of the station's name in the file, 7 */
    YARD_HEADER2_NAME_BYTES, /* how many bytes the name has without its closing zeros, 2 to 16 */
    YARD_HEADER2_VALUES
};

#define YARD_HEADER2_SIZE 20

/* The record that starts at a place. No record starts there: YARD_QUESTION. Value 0 is the record's kind, and the kind's values stand after
 * it; those after the kind's last one are 0. A link is the place of another record, 0 for none. A name is its place in the file and how
 * many bytes it has, 0 to 8. The bytes are 0x20 to 0x7E, and the name has no space first or last; no zero need stand after it. Where there
 * is no name the number is 0, and the place is that of its field. */
uint64_t yard_record(const uint8_t *file, size_t file_length, size_t offset, uint8_t *out, size_t out_length);

#define YARD_RECORD_KIND 0
#define YARD_RECORD_VALUES 12
#define YARD_RECORD_SIZE 48

enum yard_kind {
    YARD_START_BOUNDARY = 1,
    YARD_END_BOUNDARY = 2,
    YARD_TURNOUT = 3,
    YARD_BALISE = 4,
    YARD_SIGNAL = 5,
    YARD_JOINT = 6,
    YARD_SIDING = 7
};

/* A start boundary, table 6, or an end boundary, table 7. */
enum yard_boundary_value {
    YARD_BOUNDARY_TYPE = 1,          /* start: 0x00 or 0x01; end: 0xFF or 0xFE */
    YARD_BOUNDARY_LINK,
    YARD_BOUNDARY_NEIGHBOUR_STATION, /* 0 for none */
    YARD_BOUNDARY_NEIGHBOUR_TYPE,    /* a boundary's type byte, or 0x55 for an unknown one */
    YARD_BOUNDARY_NEIGHBOUR_TRACK,   /* 0 for none */
    YARD_BOUNDARY_POSITION,
    YARD_BOUNDARY_TRACK
};

/* A turnout, table 8. */
enum yard_turnout_value {
    YARD_TURNOUT_NUMBER = 1,
    YARD_TURNOUT_DIRECTION, /* 0: it opens towards falling positions; 1: towards rising ones */
    YARD_TURNOUT_TIP_POSITION,
    YARD_TURNOUT_NORMAL_POSITION,
    YARD_TURNOUT_REVERSE_POSITION,
    YARD_TURNOUT_FRONT,   /* link */
    YARD_TURNOUT_NORMAL,  /* link */
    YARD_TURNOUT_REVERSE, /* link */
    YARD_TURNOUT_FRONT_TRACK,
    YARD_TURNOUT_NORMAL_TRACK,
    YARD_TURNOUT_REVERSE_TRACK
};

/* A balise, table 9. The balises of a group follow each other in the file by rising place and have the same links; what links to them names
 * number 1 alone. */
enum yard_balise_value {
    YARD_BALISE_PREVIOUS = 1, /* link */
    YARD_BALISE_NEXT,         /* link */
    YARD_BALISE_NUMBER,
    YARD_BALISE_BYTES,     /* how many bytes the record has: 16, and those of its message */
    YARD_BALISE_NATURE,    /* 0: virtual; 1: physical */
    YARD_BALISE_DIRECTION, /* of its group: 1: against rising positions; 2: with them */
    YARD_BALISE_POSITION,
    YARD_BALISE_TRACK,
    YARD_BALISE_PLACE,  /* its place in its group, 1 to 8 */
    YARD_BALISE_COUNT,  /* how many balises its group has, 1 to 8 */
    YARD_BALISE_MESSAGE /* the place of its message in the file */
};

/* A signal, table 10. */
enum yard_signal_value {
    YARD_SIGNAL_PREVIOUS = 1, /* link */
    YARD_SIGNAL_NEXT,         /* link */
    YARD_SIGNAL_NAME,         /* the place of its name */
    YARD_SIGNAL_NAME_BYTES,   /* how many bytes the name has, 1 to 8 */
    YARD_SIGNAL_POSITION,
    YARD_SIGNAL_TRACK,
    YARD_SIGNAL_DIRECTION, /* 0: for no direction; 1: down; 2: up */
    YARD_SIGNAL_TYPE       /* 1: entry; 2: exit; 3: passing; 4: route; 5: shunting */
};

/* An insulated rail joint, table 11. */
enum yard_joint_value {
    YARD_JOINT_PREVIOUS = 1, /* link */
    YARD_JOINT_NEXT,         /* link */
    YARD_JOINT_NAME,         /* the place of its name */
    YARD_JOINT_NAME_BYTES,   /* how many bytes the name has, 1 to 8; 0 for an unnamed joint */
    YARD_JOINT_POSITION,
    YARD_JOINT_TRACK
};

/* A siding, table 12. */
enum yard_siding_value {
    YARD_SIDING_NAME = 1,   /* the place of its name */
    YARD_SIDING_NAME_BYTES, /* how many bytes the name has, 1 to 8 */
    YARD_SIDING_TRACK,
    YARD_SIDING_UP_BALISE,       /* the number of the exit balise on the up side, 0xFFFFFF for none */
    YARD_SIDING_UP_SIGNAL,       /* the place of the name of the exit signal on the up side */
    YARD_SIDING_UP_SIGNAL_BYTES, /* how many bytes that name has, 1 to 8; 0 for none */
    YARD_SIDING_DOWN_BALISE,     /* the same three of the down side */
    YARD_SIDING_DOWN_SIGNAL,
    YARD_SIDING_DOWN_SIGNAL_BYTES
};

/* Every route from the boundary that starts at `start`, of at most `limit` objects (2 to 512; 0 means 160), where there are at most `budget`
 * partial walks (1 to 65,535). No boundary starts there, or the limit or the budget is out of range: YARD_QUESTION. More partial walks than
 * the budget: YARD_STEPS. The list does not fit in `words`, or the counts do not fit in `counts`: YARD_ROOM.
 *
 * The list is put at the start of `words`, in words of two bytes, low byte first: of each route its number of objects and then their
 * places, from the boundary on; normal before reverse where two routes part. There is room for half as many words as there are bytes, and
 * an odd last byte is never touched. Bytes after the list are left as they were.
 *
 * Routes read backwards: of two calls on one file by one limit that are not refused, from the boundaries A and B, with any budgets and any
 * room, by this function or by yard_routes_flat, a route from A that ends at B is in the first list exactly when its reverse is in the
 * second. */
uint64_t yard_routes(const uint8_t *file, size_t file_length, size_t start, size_t limit, size_t budget, uint8_t *counts,
                     size_t counts_length, uint8_t *words, size_t words_length);

enum yard_routes_value {
    YARD_ROUTES_ROUTES, /* how many routes there are */
    YARD_ROUTES_WORDS,  /* how many words the list takes */
    YARD_ROUTES_WALKS,  /* how many partial walks there are */
    YARD_ROUTES_VALUES
};

#define YARD_ROUTES_SIZE 12

/* The same list by a second way: the arguments, the answer, the counts, the words and the refusals are those of yard_routes, on every
 * input. It holds the open choices in an array of its own and calls nothing that calls itself, so that its stack does not grow with the
 * yard: for a host with a small stack, and to compare one engine's list with the other's. */
uint64_t yard_routes_flat(const uint8_t *file, size_t file_length, size_t start, size_t limit, size_t budget, uint8_t *counts,
                          size_t counts_length, uint8_t *words, size_t words_length);

/* ---- on a pair: what lies ahead, for a cab unit */

/* The objects ahead, in order. A train has last passed the object that starts at `offset` of the X.2 and leaves it by the link of an index, from 0
 * in the order of the record's fields: a boundary has link 0 alone; a turnout has front 0, normal 1 and reverse 2; a balise, a signal and a joint
 * have previous 0 and next 1. `lies` has 256 bytes, one for each turnout number: YARD_LIE_NORMAL, YARD_LIE_REVERSE or YARD_LIE_UNKNOWN. Equal
 * turnout numbers share one lie; byte 0 belongs to no turnout, and is one of the three all the same.
 *
 * The pair is judged first, as by yard_pair, and its fault is answered with its file. Then YARD_QUESTION: no object starts at `offset`, or a
 * siding or a balise of place above 1 does; the object has no such link; `lies` has not 256 bytes, or one of them is no lie. Then YARD_ROOM: `out`
 * has fewer than YARD_AHEAD_SIZE bytes. Both are at place 0 and of file 0.
 *
 * An answer says why the list stops, YARD_STOP, and how many objects it has, YARD_OBJECTS: at most 64. Their places are put at the start of
 * `out`, two bytes each and low byte first, nearest first: read them by yard_word. The bytes after them are left as they were. A refusal has 0 in
 * both, and leaves every byte. */
uint64_t yard_ahead(const uint8_t *first, size_t first_length, const uint8_t *second, size_t second_length, size_t offset, size_t link,
                    const uint8_t *lies, size_t lies_length, uint8_t *out, size_t out_length);

/* How many bytes the lies have, and how many the output has at least: two for each of 64 objects. */
#define YARD_LIES_SIZE 256
#define YARD_AHEAD_SIZE 128

enum yard_lie {
    YARD_LIE_NORMAL = 0,
    YARD_LIE_REVERSE = 1,
    YARD_LIE_UNKNOWN = 2
};

/* Why the list stops: one of enum yard_stop; 0 in a refusal. */
#define YARD_STOP(answer) ((unsigned)((answer) >> 48 & 0xFF))

/* How many objects it has; 0 in a refusal. */
#define YARD_OBJECTS(answer) ((unsigned)((answer) >> 56))

enum yard_stop {
    YARD_STOP_BOUNDARY = 1,    /* at a boundary, the last object of the list */
    YARD_STOP_NO_LINK = 2,     /* no link leads on from the last object, or from the one last passed */
    YARD_STOP_UNKNOWN_LIE = 3, /* at a turnout, entered at the front, whose lie is unknown: the last object of the list */
    YARD_STOP_REPEATED = 4,    /* what would follow stands in the list already, or was last passed */
    YARD_STOP_AGAINST_LIE = 5, /* at a turnout, entered at a leg, that is known to lie for the other leg: the last object of the list */
    YARD_STOP_FULL = 6         /* 64 objects are listed, and another would follow */
};

/* ---- a file in pieces: a loader that joins no two versions */

/* A transfer is opened with the identity of a file, five numbers: its station, its file type (1 or 2), its data version, its total length, and
 * its trailer, which is its last four bytes as a number, low byte first. Every piece repeats them, so that a piece of another file or of another
 * data version is refused where it comes. A file is whole where finishing accepts it, and not before.
 *
 * A piece is seven numbers and then bytes of the file: the five of the identity, the place in the file that its bytes start at, and how many
 * they are. Each number is in groups of seven bits, one to a byte, low group first; the top bit is set on all groups but the last. It has the
 * shortest form and at most 32 bits.
 *
 * The caller keeps two things and lends them to each call. The state has YARD_LOAD_STATE_SIZE bytes; bytes of a longer one after these are left
 * as they were. The room is where the file is gathered: its bytes stand in it from the first on. Both are the same throughout; the room may be
 * lent shorter or longer from call to call. A state may be kept and lent again later, and so a transfer that broke off goes on: the next byte
 * due is yard_unsigned(state, YARD_LOAD_DUE). Bytes that are no state, all zero for instance, have nothing opened: a state is at least so many
 * bytes, of which the first value is 1. */
#define YARD_LOAD_STATE_SIZE 28

/* The values of a state, four bytes each, low byte first. */
enum yard_load_value {
    YARD_LOAD_OPENED,  /* 1; any other value: nothing is opened, and the values after it mean nothing */
    YARD_LOAD_STATION, /* the identity */
    YARD_LOAD_TYPE,
    YARD_LOAD_VERSION,
    YARD_LOAD_TOTAL,
    YARD_LOAD_TRAILER,
    YARD_LOAD_DUE,     /* the next byte due: so many bytes stand in the room */
    YARD_LOAD_VALUES
};

/* Opens a transfer. A file type other than 1 or 2, or a station, version or trailer of more than 32 bits: YARD_QUESTION. A total under 68 (type
 * 1), under 69 (type 2), over 65,535 or over the bytes of the room, or a state that is too short: YARD_ROOM. A refused opening changes nothing,
 * and a transfer under way goes on. A granted one forgets all, also with the same identity; no byte of the room is written. */
uint64_t yard_load_open(uint8_t *state, size_t state_length, size_t station, size_t type, size_t version, size_t total, size_t trailer,
                        const uint8_t *room, size_t room_length);

/* Takes a piece. In this order: a bad number (cut off by the end, not the shortest form, over 32 bits), no bytes, or a byte count other than the
 * count of bytes that follow: YARD_PIECE. Nothing opened, or another identity: YARD_IDENTITY. A start that is not the next byte due: YARD_ORDER.
 * Bytes beyond the total: YARD_PIECE. A room under the total: YARD_ROOM. All are at place 0, and a refused piece changes nothing. The bytes of
 * an accepted one stand in the room from its start on, nothing else of the room is written, and the next byte due is the one behind them. */
uint64_t yard_load_piece(uint8_t *state, size_t state_length, const uint8_t *piece, size_t piece_length, uint8_t *room, size_t room_length);

/* Finishes a transfer: the reader judges the file, which is the first bytes of the room, as many as the total. Nothing opened, or bytes are
 * still due: YARD_ORDER. A room under the total: YARD_ROOM. Both are at place 0. Then the number and the place of yard_x1 or yard_x2, by the
 * identity's file type. Then YARD_IDENTITY at place 0: the file's station, file type, data version, length or trailer is not the identity's. 0:
 * the file is right, and it is the one that was opened. It changes nothing: asked again it answers the same, and the transfer stays open. */
uint64_t yard_load_finish(const uint8_t *state, size_t state_length, const uint8_t *room, size_t room_length);

#ifdef __cplusplus
}
#endif

#endif
