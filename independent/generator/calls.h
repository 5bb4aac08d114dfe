/* Sequences of calls of the loader (02, ticket 6), in the form that a case of
 * load has them: each is a byte that says which call, four bytes that say how
 * much of the room is lent, four that say how many bytes follow, and these.
 * Numbers are low byte first. */
#ifndef CALLS_H
#define CALLS_H

#include "core/load.h"

/* The calls, by the byte that makes each. */
enum {
    CALL_OPEN = 1,
    CALL_PIECE,
    CALL_FINISH,
    CALL_KINDS
};

enum {
    /* The largest room, and what stands in each of its bytes at first. */
    LOAD_ROOM_MOST = 65536,
    LOAD_ROOM_BYTE = 0xA5,
    /* The most bytes of a call, and how many an opening has. */
    CALL_BYTES_MOST = 131072,
    OPENING_NUMBER_SIZE = 4,
    OPENING_SIZE = OPENING_NUMBER_SIZE * IND_IDENTITY_NUMBERS
};

/* Bytes that grow as they are added to; none where all is zero. */
typedef struct {
    uint8_t *bytes;
    uint32_t length;
    uint32_t room;
} sequence;

/* Adds bytes. Ends the program where there is no memory for them. */
void add_bytes(sequence *to, const uint8_t *bytes, uint32_t count);

/* A call; its bytes stand in the sequence. */
typedef struct {
    uint32_t kind;
    uint32_t lent;
    const uint8_t *bytes;
    uint32_t length;
} load_call;

/* Adds a call. */
void add_call(sequence *to, const load_call *call);

/* Takes the call at a place, and moves the place behind it. 0 where that is
 * none: an unknown byte, too many bytes, an opening of other than five numbers,
 * or an end inside it. */
int take_call(const uint8_t *calls, uint32_t length, uint32_t *place,
              load_call *call);

/* Whether a sequence is one of calls, to its end. */
int are_calls(const uint8_t *calls, uint32_t length);

/* How much of a room of so many bytes a call is lent. */
uint32_t lent_of(const load_call *call, uint32_t room_size);

/* The five numbers of an opening. */
void opening_numbers(const load_call *call,
                     uint64_t identity[IND_IDENTITY_NUMBERS]);

/* The core's answer to a call, with the first bytes of a room lent. */
ind_answer answer_call(ind_transfer *transfer, const load_call *call,
                       uint8_t *room, uint32_t lent);

/* The word that names a kind of call: `load-open` and so on. */
const char *call_name(uint32_t kind);

/* A number at a place in at least so many groups, of which those that it does
 * not need are 0: it may have more than 32 bits. How many groups it has. */
uint32_t put_groups(uint8_t *to, uint64_t number, uint32_t groups);

/* The identity that a file's own bytes give, of a file that has its opening
 * fields and a trailer. */
void identity_of(const uint8_t *file, uint32_t length,
                 uint32_t identity[IND_IDENTITY_NUMBERS]);

enum {
    /* The most groups of a number that is put: 64 bits. */
    PUT_GROUPS_MOST = 10
};

#endif
