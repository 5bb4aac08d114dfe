/* A case: a question, its numbers and its files. */
#ifndef ASKED_H
#define ASKED_H

#include "calls.h"
#include "core/ahead.h"
#include "stored.h"

/* The questions, by the number that asks each. */
enum {
    ASK_NOTHING = 0,
    ASK_X1,
    ASK_X2,
    ASK_PAIR,
    ASK_TRACK,
    ASK_POINT,
    ASK_COORDINATE,
    ASK_RECORD,
    ASK_ROUTES,
    ASK_HEADER1,
    ASK_HEADER2,
    /* Routes by the second lister of 02's ticket 12. */
    ASK_ROUTES2,
    /* Coordinate and point in degrees, by its ticket 14. */
    ASK_DEGREES,
    ASK_POINT_DEGREES,
    /* A file in pieces, by its ticket 6: a sequence of calls. */
    ASK_LOAD,
    /* What lies ahead, by its ticket 9. */
    ASK_AHEAD,
    ASK_X1_VERSION_1,
    QUESTIONS
};

enum {
    NUMBERS = 4,
    FILES = 2,
    /* The most words that a generated case lends for routes, and the most
     * bytes for what lies ahead. */
    ROOM_LARGEST = 65535,
    /* The most lies that a generated case has. */
    LIES_ROOM = 2 * IND_LIES
};

/* The numbers of a case of ahead. */
enum {
    AHEAD_OFFSET,
    AHEAD_LINK,
    AHEAD_LIES,
    AHEAD_BYTES
};

/* The number of a case of load: how many bytes the room has. */
enum {
    LOAD_ROOM
};

/* A case of ahead has as many lies as one of its numbers says, and their bytes
 * where those are at most LIES_ROOM: of a longer list, as of an over-long
 * file, it counts that it is too long. A case of load has calls for its first
 * file; of any other case they mean nothing. */
typedef struct {
    uint32_t question;
    uint32_t numbers[NUMBERS];
    stored files[FILES];
    uint8_t lies[LIES_ROOM];
    sequence calls;
} asked;

/* A case as the core is to see it: the bytes of files, of calls and of lies
 * wherever they stand. */
typedef struct {
    uint32_t question;
    uint32_t numbers[NUMBERS];
    const uint8_t *bytes[FILES];
    uint32_t length[FILES];
    const uint8_t *lies;
} posed;

posed pose(const asked *ask);

/* Whether a number asks a question. */
int is_question(uint32_t asked_for);

/* Some questions come in twos that have the same cases: routes and routes2,
 * coordinate and degrees, point and point-degrees. The first of the two of
 * which this is one, or else the question itself. */
uint32_t first_of(uint32_t asked_for);

/* The second of the two of which this is the first, or else ASK_NOTHING. */
uint32_t second_of(uint32_t asked_for);

/* Whether it is asked where no question is named: not the second of two, nor
 * load or ahead. */
int is_asked_unnamed(uint32_t asked_for);

/* Whether it is about both files of a station. */
int asks_pair(uint32_t asked_for);

/* Whether it asks for routes, by either lister. */
int asks_routes(uint32_t asked_for);

/* The word that names a question on a command line; none where the number
 * asks nothing. */
const char *question_name(uint32_t asked_for);

#endif
