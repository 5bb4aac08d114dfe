/* What the library has to answer, by the independent core. */
#ifndef EXPECTED_H
#define EXPECTED_H

#include "generator/asked.h"
#include "yard.h"

enum {
    VALUES_ROOM = YARD_RECORD_SIZE,
    WORDS_ROOM = 2 * ROOM_LARGEST,
    /* A state of the loader is lent with up to so many bytes more. */
    STATE_SPARE = 12,
    STATE_ROOM = YARD_LOAD_STATE_SIZE + STATE_SPARE
};

/* The answer as the library returns it, the bytes of its values and, of
 * routes and of what lies ahead, those of its words. A refused answer has
 * neither. */
typedef struct {
    uint64_t answer;
    uint32_t values_size;
    uint8_t values[VALUES_ROOM];
    uint32_t words_size;
    uint8_t words[WORDS_ROOM];
} expected;

/* How many bytes the values of an answered question take. */
uint32_t values_size_of(uint32_t asked_for);

/* The answer to a case whose outputs are as long as they need to be; the room
 * for words is the case's own. */
void expect(const posed *ask, expected *due);

/* A call of the loader: which one, the numbers of an opening, the bytes of a
 * piece, and the state and the room as they are lent. */
typedef struct {
    uint32_t kind;
    uint64_t identity[IND_IDENTITY_NUMBERS];
    const uint8_t *piece;
    uint32_t piece_length;
    uint8_t state[STATE_ROOM];
    uint32_t state_length;
    uint8_t room[LOAD_ROOM_MOST];
    uint32_t room_length;
} load_lent;

/* The answer to a call of the loader; state and room become what it has to
 * leave. */
uint64_t expect_load(load_lent *of);

#endif
