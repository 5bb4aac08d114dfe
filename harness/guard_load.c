/* Guarded calls of the loader. The sequence of calls of a case is made from
 * call to call, by the state and the room that the core says are due; each call
 * is made with state, piece and room against an unreadable page on both sides
 * in turn, and has to return all 64 bits and to leave every byte that is due.
 */
#include "guard.h"

#include <stdio.h>
#include <string.h>

#include "expected.h"
#include "generator/damage.h"

static room state_room, piece_room, load_room;

void make_load_rooms(void)
{
    state_room = make_room(STATE_ROOM);
    piece_room = make_room(CALL_BYTES_MOST);
    load_room = make_room(LOAD_ROOM_MOST);
}

/* ---- a call */

/* The buffers of a call as they are lent. */
typedef struct {
    uint8_t *state;
    uint8_t *piece;
    uint8_t *room;
} buffers;

static buffers lend_load(const load_lent *of, way lent)
{
    buffers given = { lend(state_room, of->state_length, lent),
                      lend(piece_room, of->piece_length, lent),
                      lend(load_room, of->room_length, lent) };
    copy(given.state, of->state, of->state_length);
    copy(given.piece, of->piece, of->piece_length);
    copy(given.room, of->room, of->room_length);
    return given;
}

static uint64_t call_library(const load_lent *of, const buffers *given)
{
    const uint64_t *n = of->identity;
    switch (of->kind) {
    case CALL_OPEN:
        return yard_load_open(given->state, of->state_length,
                              n[IND_STATION_NUMBER], n[IND_TYPE_NUMBER],
                              n[IND_VERSION_NUMBER], n[IND_TOTAL_NUMBER],
                              n[IND_TRAILER_NUMBER], given->room,
                              of->room_length);
    case CALL_PIECE:
        return yard_load_piece(given->state, of->state_length, given->piece,
                               of->piece_length, given->room,
                               of->room_length);
    default:
        return yard_load_finish(given->state, of->state_length, given->room,
                                of->room_length);
    }
}

static void tell_load(const load_lent *of, uint64_t got, uint64_t due)
{
    char what[160];
    snprintf(what, sizeof what,
             "%s, state of %lu bytes, piece of %lu, room of %lu",
             call_name(of->kind), (unsigned long)of->state_length,
             (unsigned long)of->piece_length,
             (unsigned long)of->room_length);
    if (!tell_defect(what))
        return;
    tell_answer("library", got);
    tell_answer("independent", due);
    fflush(stdout);
}

/* The bytes that differ: of how many buffers. */
static uint64_t changed_in_load(const buffers *left, const load_lent *due)
{
    return (uint64_t)!alike(left->state, due->state, due->state_length)
        + (uint64_t)!alike(left->piece, due->piece, due->piece_length)
        + (uint64_t)!alike(left->room, due->room, due->room_length);
}

/* One call with its buffers lent in one way; due is what it has to leave. */
static void one_load(figures *seen, const load_lent *of, const load_lent *due,
                     uint64_t answer, way lent)
{
    buffers given = lend_load(of, lent);
    uint64_t got, changed;
    begin_call(ASK_LOAD, of->kind, lent);
    got = call_library(of, &given);
    end_call();
    changed = changed_in_load(&given, due);
    seen->calls++;
    seen->load_answers[of->kind][YARD_NUMBER(got) % IND_NUMBERS]++;
    seen->with_null += lent == NULL_FOR_NOTHING;
    seen->differ += got != answer;
    seen->changed += changed;
    if (got != answer || changed > 0)
        tell_load(of, got, answer);
}

/* Some buffer that the call lends has no bytes. */
static int lends_nothing(const load_lent *of)
{
    return of->state_length == 0 || of->room_length == 0
        || (of->kind == CALL_PIECE && of->piece_length == 0);
}

/* The call with its buffers lent in each way; what it has to leave. */
static void load_each_way(figures *seen, const load_lent *of, load_lent *due)
{
    int ways = lends_nothing(of) ? WAYS : NULL_FOR_NOTHING;
    uint64_t answer;
    *due = *of;
    answer = expect_load(due);
    for (int lent = PAGE_BEFORE; lent < ways; lent++)
        one_load(seen, of, due, answer, (way)lent);
}

/* ---- what is lent */

/* The values of a state, from an index on, at random or at an edge. */
static void random_values(source *from, uint8_t *state, uint32_t first)
{
    static const uint32_t edges[] = { 0,  1,     2,     7,          67,
                                      68, 69,    100,   65535,      65536,
                                      0x7FFFFFFF, 0x80000000, UINT32_MAX };
    for (uint32_t i = first; i < YARD_LOAD_VALUES; i++)
        put_four(state, YARD_VALUE_SIZE * i,
                 once_in(from, 2) ? ONE_OF(from, edges)
                                  : (uint32_t)draw_bits(from));
}

/* A state that no calls lead to: one value of it is another, mostly such as a
 * piece does not name, or all are. */
static void odd_state(source *from, load_lent *of)
{
    uint32_t due = yard_unsigned(of->state, YARD_LOAD_DUE);
    uint32_t total = yard_unsigned(of->state, YARD_LOAD_TOTAL);
    const uint32_t dues[] = { total,     total + 1, due + 1, due - 1,
                              UINT32_MAX, total - 1 };
    const uint32_t totals[] = { due,     due + 1,    10,   67,
                                65535,   65536,      UINT32_MAX, 0 };
    static const uint32_t firsts[] = { 0, 2, 256, 257, 65537, 0x1000001 };
    static const uint32_t types[] = { 0, 3, 7, 257, 258, UINT32_MAX };
    uint8_t *state = of->state;
    switch (draw(from, 6)) {
    case 0: random_values(from, state, YARD_LOAD_OPENED); break;
    case 1: random_values(from, state, YARD_LOAD_STATION); break;
    case 2: put_four(state, 0, ONE_OF(from, firsts)); break;
    case 3:
        put_four(state, YARD_VALUE_SIZE * YARD_LOAD_DUE, ONE_OF(from, dues));
        break;
    case 4:
        put_four(state, YARD_VALUE_SIZE * YARD_LOAD_TOTAL,
                 ONE_OF(from, totals));
        break;
    default:
        put_four(state, YARD_VALUE_SIZE * YARD_LOAD_TYPE,
                 ONE_OF(from, types));
        break;
    }
}

/* The state is too short, or some buffer has no bytes. */
static void lend_less(source *from, load_lent *of)
{
    static const uint32_t lengths[] = { 0, 1, 4, YARD_LOAD_STATE_SIZE - 1 };
    switch (draw(from, 4)) {
    case 0: of->room_length = 0; break;
    case 1: of->piece_length = 0; break;
    default: of->state_length = ONE_OF(from, lengths); break;
    }
}

/* A number of an opening that no 32 bits hold, and that a shorter one would
 * take for the right one. */
static void raise_a_number(source *from, load_lent *of)
{
    of->identity[draw(from, IND_IDENTITY_NUMBERS)] +=
        (uint64_t)1 << (32 + draw(from, 32));
}

/* A piece of this state, for its next byte due and with its identity: what is
 * odd about the state is asked then. */
static uint32_t piece_of_state(source *from, const load_lent *of,
                               uint8_t *piece)
{
    uint32_t length = 0, count = 1 + draw(from, 20);
    for (uint32_t i = YARD_LOAD_STATION; i < YARD_LOAD_VALUES; i++)
        length += put_groups(piece + length, yard_unsigned(of->state, i), 0);
    length += put_groups(piece + length, count, 0);
    for (; count > 0; count--)
        piece[length++] = (uint8_t)draw_bits(from);
    return length;
}

/* The call once more with something odd about it; what it leaves is passed
 * over. */
static void load_oddly(figures *seen, source *from, const load_lent *of)
{
    static load_lent odd, due;
    uint8_t piece[YARD_LOAD_VALUES * PUT_GROUPS_MOST + 20];
    odd = *of;
    if (once_in(from, 2))
        odd_state(from, &odd);
    if (odd.kind == CALL_PIECE && !once_in(from, 3)) {
        odd.piece_length = piece_of_state(from, &odd, piece);
        odd.piece = piece;
    }
    if (once_in(from, 3))
        lend_less(from, &odd);
    if (odd.kind == CALL_OPEN && once_in(from, 2))
        raise_a_number(from, &odd);
    load_each_way(seen, &odd, &due);
}

/* ---- a case */

/* The call of a sequence, with a state of just so many bytes or of more. */
static void take_up(source *from, const load_call *call, uint32_t room_size,
                    load_lent *of)
{
    of->kind = call->kind;
    of->piece = call->bytes;
    of->piece_length = call->kind == CALL_PIECE ? call->length : 0;
    of->state_length = YARD_LOAD_STATE_SIZE;
    if (once_in(from, 2))
        of->state_length += draw(from, STATE_SPARE + 1);
    of->room_length = lent_of(call, room_size);
    if (call->kind == CALL_OPEN)
        opening_numbers(call, of->identity);
}

/* With nothing opened: all zero, or any bytes of which the first value is not
 * 1. */
static void begin_state(source *from, load_lent *of)
{
    memset(of->state, 0, sizeof of->state);
    memset(of->room, LOAD_ROOM_BYTE, sizeof of->room);
    if (once_in(from, 2))
        return;
    for (uint32_t i = 0; i < STATE_ROOM; i++)
        of->state[i] = (uint8_t)draw_bits(from);
    of->state[1] = 2;
}

/* A piece with some bits flipped, mostly in its head. */
static void flip_piece(source *from, load_lent *of, stored *flipped)
{
    enum { MOST = 40 };
    if (of->kind != CALL_PIECE || of->piece_length > FILE_ROOM
        || !once_in(from, 3))
        return;
    flipped->length = of->piece_length;
    memcpy(flipped->bytes, of->piece, of->piece_length);
    if (flipped->length > MOST)
        flipped->length = MOST;
    flip_bits(from, flipped);
    of->piece = flipped->bytes;
}

void run_loads(figures *seen, source *from, const asked *ask, int flipped)
{
    static load_lent of, due;
    static stored flipped_piece;
    uint32_t place = 0;
    load_call call;
    begin_state(from, &of);
    while (place < ask->calls.length
           && take_call(ask->calls.bytes, ask->calls.length, &place, &call)) {
        take_up(from, &call, ask->numbers[LOAD_ROOM], &of);
        if (flipped)
            flip_piece(from, &of, &flipped_piece);
        if (once_in(from, 3))
            load_oddly(seen, from, &of);
        load_each_way(seen, &of, &due);
        of = due;
    }
}
