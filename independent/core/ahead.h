/* 02, ticket 9: what lies ahead, for the cab unit. */
#ifndef IND_AHEAD_H
#define IND_AHEAD_H

#include <stddef.h>

#include "answer.h"
#include "bytes.h"

enum {
    /* A lie for each turnout number; byte 0 belongs to no turnout. */
    IND_LIES = 256,
    /* At most so many objects are listed, two bytes per entry. */
    IND_AHEAD_MOST = 64,
    IND_AHEAD_ROOM = IND_AHEAD_MOST * IND_OFFSET_SIZE
};

/* The three lies. */
enum {
    IND_LIE_NORMAL = 0,
    IND_LIE_REVERSE = 1,
    IND_LIE_UNKNOWN = 2
};

/* Why a list stops. */
typedef enum {
    IND_NO_STOP = 0,
    IND_STOP_BOUNDARY,
    IND_STOP_NO_LINK,
    IND_STOP_UNKNOWN_LIE,
    IND_STOP_REPEATED,
    IND_STOP_AGAINST_LIE,
    IND_STOP_FULL,
    IND_STOPS
} ind_stop;

/* Why the list stops, and how many objects it has. */
typedef struct {
    ind_answer answer;
    ind_stop stop;
    uint32_t objects;
} ind_ahead;

/* The objects ahead of the one last passed, which starts at an offset of the
 * X.2 and is left by its link of an index. Their offsets go to the lent bytes,
 * low byte first, of which there are as many as room says; the rest of them
 * keep their values. */
ind_ahead ind_ahead_of(const uint8_t *x1, size_t x1_length, const uint8_t *x2,
                       size_t x2_length, uint32_t offset, uint32_t link,
                       const uint8_t *lies, size_t lies_length, uint8_t *out,
                       size_t room);

#endif
