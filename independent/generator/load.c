/* Transfers: faithful, broken off, resumed with another data version, under
 * forged identities, and with each call that can go wrong between. Each call is
 * made of the core as soon as it is put, so that the next one knows where the
 * transfer stands. */
#include "load.h"

#include <string.h>

#include "core/core.h"

/* How large the pieces are. */
typedef enum {
    PACE_WHOLE,
    PACE_PARTS,
    PACE_EDGES,
    PACE_FEW,
    PACE_ONES,
    PACES
} pace;

/* A sender: the file, the identity that he gives, right or forged, and where
 * the transfer stands. A call goes wrong once in so many. */
typedef struct {
    source *from;
    sequence *calls;
    const stored *file;
    uint32_t identity[IND_IDENTITY_NUMBERS];
    uint32_t room;
    pace speed;
    uint32_t wrong_once_in;
    ind_transfer transfer;
    /* The last piece that was taken. */
    uint32_t last_start;
    uint32_t last_count;
} sending;

/* A piece as it is put: its numbers, each in at least so many groups, and one
 * perhaps without a last group; from which place of the file its bytes are, and
 * how many follow; where it is cut off; and how much of the room is lent. */
typedef enum {
    CUT_NOWHERE,
    CUT_IN_HEAD,
    CUT_IN_BYTES
} cut_where;

typedef struct {
    uint64_t numbers[IND_PIECE_NUMBERS];
    uint32_t groups[IND_PIECE_NUMBERS];
    uint32_t endless;
    uint32_t bytes;
    uint32_t following;
    cut_where cut;
    uint32_t lent;
} sent_piece;

enum {
    HEAD_MOST = PUT_GROUPS_MOST * IND_PIECE_NUMBERS,
    /* No number of a piece is without its last group. */
    NONE_ENDLESS = IND_PIECE_NUMBERS,
    FOLLOWING_MOST = CALL_BYTES_MOST - HEAD_MOST,
    /* What is sent behind a file's end. */
    BEHIND_BYTE = 0x5A,
    /* The longest pieces of a transfer that is not under way. */
    IDLE_MOST = 40
};

/* ---- calls */

/* Puts a call, and makes it of the core. */
static ind_answer put_call(sending *s, uint32_t kind, uint32_t lent,
                           const uint8_t *bytes, uint32_t length)
{
    static uint8_t room[LOAD_ROOM_MOST];
    load_call call = { kind, lent, bytes, length };
    add_call(s->calls, &call);
    return answer_call(&s->transfer, &call, room, lent_of(&call, s->room));
}

static uint32_t total_of(const sending *s)
{
    return s->identity[IND_TOTAL_NUMBER];
}

/* The whole room, or at least the total. */
static uint32_t enough_room(sending *s)
{
    const uint32_t values[] = { s->room, s->room,      s->room,
                                s->room, s->room + 1,  UINT32_MAX,
                                total_of(s), total_of(s) + 1 };
    return ONE_OF(s->from, values);
}

/* A room under the total. */
static uint32_t short_room(sending *s)
{
    uint32_t total = total_of(s), due = s->transfer.due;
    const uint32_t values[] = { total - 1, total - 1, 0,        due,
                                due + 1,   total - 4, total / 2 };
    uint32_t lent = ONE_OF(s->from, values);
    return lent < total ? lent : total - 1;
}

static ind_answer put_open(sending *s,
                           const uint32_t identity[IND_IDENTITY_NUMBERS],
                           uint32_t lent)
{
    uint8_t bytes[OPENING_SIZE];
    for (uint32_t i = 0; i < IND_IDENTITY_NUMBERS; i++)
        put_four(bytes, OPENING_NUMBER_SIZE * i, identity[i]);
    return put_call(s, CALL_OPEN, lent, bytes, sizeof bytes);
}

static ind_answer open_own(sending *s)
{
    return put_open(s, s->identity, enough_room(s));
}

/* A finishing's bytes are passed over; it has some now and then. */
static void put_finish(sending *s, uint32_t lent)
{
    static const uint8_t bytes[] = { 0xFF, 0, 0x80, 1 };
    uint32_t length = once_in(s->from, 8) ? draw(s->from, 5) : 0;
    put_call(s, CALL_FINISH, lent, bytes, length);
}

/* How many bytes of a piece are kept. */
static uint32_t kept_of(sending *s, const sent_piece *piece, uint32_t head)
{
    switch (piece->cut) {
    case CUT_IN_HEAD: return draw(s->from, head + 1);
    case CUT_IN_BYTES: return head + draw(s->from, piece->following);
    default: return head + piece->following;
    }
}

static ind_answer put_piece(sending *s, const sent_piece *piece)
{
    static uint8_t made[CALL_BYTES_MOST];
    uint32_t head = 0;
    for (uint32_t i = 0; i < IND_PIECE_NUMBERS; i++) {
        head += put_groups(made + head, piece->numbers[i], piece->groups[i]);
        if (i == piece->endless)
            made[head - 1] |= IND_GROUP_MORE;
    }
    for (uint32_t i = 0; i < piece->following; i++) {
        uint32_t place = piece->bytes + i;
        made[head + i] = place < s->file->length ? s->file->bytes[place]
                                                 : BEHIND_BYTE;
    }
    return put_call(s, CALL_PIECE, piece->lent, made,
                    kept_of(s, piece, head));
}

/* ---- right pieces */

/* The transfer is open under the sender's identity. */
static int is_under_way(const sending *s)
{
    return s->transfer.opened
        && memcmp(s->transfer.identity, s->identity, sizeof s->identity) == 0;
}

/* How many bytes are still due, or few where nothing can be taken. */
static uint32_t rest_of(const sending *s)
{
    uint32_t total = total_of(s), due = s->transfer.due;
    uint32_t rest = total > due ? total - due : 0;
    return is_under_way(s) || rest < IDLE_MOST ? rest : IDLE_MOST;
}

/* How many bytes the next piece has, at the sender's pace. */
static uint32_t some_count(sending *s)
{
    uint32_t rest = rest_of(s), count = 1;
    const uint32_t edges[] = { 1,     2,     4,        127,      128,
                               129,   16383, 16384,    rest - 1, rest - 4,
                               rest / 2,     rest };
    switch (s->speed) {
    case PACE_WHOLE: count = rest; break;
    case PACE_PARTS: count = 1 + draw(s->from, rest); break;
    case PACE_EDGES: count = ONE_OF(s->from, edges); break;
    case PACE_FEW: count = 1 + draw(s->from, 16); break;
    default: break;
    }
    if (count > rest)
        count = rest;
    return count == 0 ? 1 : count;
}

/* The piece of so many bytes that is due. */
static sent_piece due_piece(sending *s, uint32_t count)
{
    sent_piece piece = { { 0 }, { 0 }, NONE_ENDLESS, s->transfer.due, count,
                         CUT_NOWHERE, 0 };
    for (uint32_t i = 0; i < IND_IDENTITY_NUMBERS; i++)
        piece.numbers[i] = s->identity[i];
    piece.numbers[IND_START_NUMBER] = s->transfer.due;
    piece.numbers[IND_COUNT_NUMBER] = count;
    piece.lent = enough_room(s);
    return piece;
}

static void send_next(sending *s, uint32_t count)
{
    sent_piece piece = due_piece(s, count);
    if (put_piece(s, &piece).number != IND_ACCEPTED)
        return;
    s->last_start = piece.bytes;
    s->last_count = count;
}

/* ---- what can be wrong with a piece */

/* Its bytes are those from another start on. */
static void start_at(sent_piece *piece, uint32_t start, uint32_t count)
{
    piece->numbers[IND_START_NUMBER] = piece->bytes = start;
    piece->numbers[IND_COUNT_NUMBER] = piece->following = count;
}

static void taken_again(sending *s, sent_piece *piece)
{
    if (s->last_count > 0)
        start_at(piece, s->last_start, s->last_count);
}

static void next_but_one(sending *s, sent_piece *piece)
{
    uint32_t after = s->transfer.due + piece->following;
    start_at(piece, after, 1 + draw(s->from, IDLE_MOST));
}

/* From before the next byte due to where it was to end. */
static void overlapping(sending *s, sent_piece *piece)
{
    uint32_t due = s->transfer.due;
    uint32_t more = 1 + draw(s->from, due < IDLE_MOST ? due : IDLE_MOST);
    if (due > 0)
        start_at(piece, due - more, piece->following + more);
}

/* The start alone is another: beside the right one, or one that a shorter
 * number would take for it. */
static void other_start(sending *s, sent_piece *piece)
{
    uint32_t due = s->transfer.due, more = 1 + draw(s->from, 15);
    const uint32_t values[] = { due + 1,           due - 1,
                                due + 1,           due - 1,
                                0,                 total_of(s),
                                total_of(s) - 1,   due + (more << 7),
                                due + (more << 14), due + (more << 16),
                                due + (more << 28), UINT32_MAX };
    uint32_t start = ONE_OF(s->from, values);
    piece->numbers[IND_START_NUMBER] = start == due ? due + 1 : start;
}

static void cut_in_head(sending *s, sent_piece *piece)
{
    (void)s;
    piece->cut = CUT_IN_HEAD;
}

static void cut_in_bytes(sending *s, sent_piece *piece)
{
    (void)s;
    piece->cut = CUT_IN_BYTES;
}

static void lengthened(sending *s, sent_piece *piece)
{
    piece->following += 1 + draw(s->from, 4);
}

static void miscounted(sending *s, sent_piece *piece)
{
    uint32_t count = piece->following;
    const uint32_t values[] = { count - 1,   count + 1,     count - 1,
                                count + 1,   0,             count + 128,
                                count + 256, count + 65536, UINT32_MAX };
    piece->numbers[IND_COUNT_NUMBER] = ONE_OF(s->from, values);
}

static void without_bytes(sending *s, sent_piece *piece)
{
    piece->following = 0;
    if (!once_in(s->from, 3))
        piece->numbers[IND_COUNT_NUMBER] = 0;
}

/* A number in more groups than it needs. */
static void longer_form(sending *s, sent_piece *piece)
{
    uint8_t groups[PUT_GROUPS_MOST];
    uint32_t which = draw(s->from, IND_PIECE_NUMBERS);
    uint32_t needed = put_groups(groups, piece->numbers[which], 0);
    const uint32_t values[] = { needed + 1, needed + 1, needed + 2,
                                IND_GROUPS_MOST, IND_GROUPS_MOST + 1,
                                PUT_GROUPS_MOST };
    uint32_t most = ONE_OF(s->from, values);
    piece->groups[which] = most > needed ? most : needed + 1;
}

/* Five groups of a number, none of which is its last: the next number stands
 * where a sixth would. */
static void endless_number(sending *s, sent_piece *piece)
{
    piece->endless = draw(s->from, IND_PIECE_NUMBERS);
    piece->groups[piece->endless] = IND_GROUPS_MOST;
}

/* A number of more than 32 bits, which a shorter one would take for the right
 * one; in five groups or in six. */
static void over_32_bits(sending *s, sent_piece *piece)
{
    uint32_t which = draw(s->from, IND_PIECE_NUMBERS);
    uint64_t more = 1 + draw(s->from, once_in(s->from, 4) ? 64 : 7);
    piece->numbers[which] += more << 32;
}

static void largest_number(sending *s, sent_piece *piece)
{
    piece->numbers[draw(s->from, IND_PIECE_NUMBERS)] = UINT32_MAX;
}

static uint32_t bytes_turned(uint32_t number)
{
    return number >> 24 | (number >> 8 & 0xFF00) | (number << 8 & 0xFF0000)
        | number << 24;
}

/* Another number of 32 bits: beside it, in one of its groups, or one that a
 * shorter number would take for it. */
static uint32_t changed(source *from, uint32_t number)
{
    uint32_t more = 1 + draw(from, 15);
    const uint32_t values[] = { number + 1,
                                number - 1,
                                number + (more << 7),
                                number + (more << 14),
                                number + (more << 21),
                                number + (more << 28),
                                number + (more << 16),
                                number + (more << 8),
                                number ^ (uint32_t)1 << draw(from, 32),
                                bytes_turned(number),
                                0 };
    uint32_t other = ONE_OF(from, values);
    return other == number ? number + 1 : other;
}

static void other_identity(sending *s, sent_piece *piece)
{
    uint32_t which = draw(s->from, IND_IDENTITY_NUMBERS);
    piece->numbers[which] = changed(s->from, s->identity[which]);
}

static void exchanged_numbers(sending *s, sent_piece *piece)
{
    uint32_t one = draw(s->from, IND_PIECE_NUMBERS);
    uint32_t other = draw(s->from, IND_IDENTITY_NUMBERS);
    uint64_t kept = piece->numbers[one];
    piece->numbers[one] = piece->numbers[other];
    piece->numbers[other] = kept;
}

static void beyond_total(sending *s, sent_piece *piece)
{
    static const uint32_t values[] = { 1, 1, 1, 2, 4, 100 };
    uint32_t total = total_of(s), due = s->transfer.due;
    uint32_t rest = total > due ? total - due : 0;
    uint32_t count = rest + ONE_OF(s->from, values);
    if (count <= FOLLOWING_MOST)
        start_at(piece, due, count);
}

static void in_short_room(sending *s, sent_piece *piece)
{
    piece->lent = short_room(s);
}

static void (*const piece_faults[])(sending *s, sent_piece *piece) = {
    taken_again,    taken_again,    next_but_one,   next_but_one,
    overlapping,    overlapping,    other_start,    other_start,
    other_start,    cut_in_head,    cut_in_head,    cut_in_bytes,
    lengthened,     miscounted,     miscounted,     without_bytes,
    longer_form,    longer_form,    over_32_bits,   over_32_bits,
    endless_number, largest_number, other_identity, other_identity,
    other_identity, other_identity, exchanged_numbers,
    beyond_total,   beyond_total,   in_short_room,  in_short_room,
    in_short_room,  in_short_room
};

/* A piece that is wrong in one way, now and then in two or three. */
static void send_wrong(sending *s)
{
    sent_piece piece = due_piece(s, some_count(s));
    do
        ONE_OF(s->from, piece_faults)(s, &piece);
    while (once_in(s->from, 3));
    put_piece(s, &piece);
}

/* Bytes at random, half of them such as are numbers of one group. */
static void send_random(sending *s)
{
    uint8_t bytes[64];
    uint32_t length = draw(s->from, sizeof bytes);
    uint8_t mask = once_in(s->from, 2) ? 0xFF : IND_GROUP_MASK;
    for (uint32_t i = 0; i < length; i++)
        bytes[i] = (uint8_t)(draw_bits(s->from) & mask);
    put_call(s, CALL_PIECE, enough_room(s), bytes, length);
}

/* A piece all of whose numbers are 0 but its count: the identity that a
 * transfer has before it is opened. */
static void send_zeros(sending *s)
{
    sent_piece piece = due_piece(s, 1 + draw(s->from, 3));
    for (uint32_t i = 0; i < IND_COUNT_NUMBER; i++)
        piece.numbers[i] = 0;
    put_piece(s, &piece);
}

/* ---- openings that are refused, or that forget */

/* One number of an opening becomes one at an edge. */
static void open_at_edge(sending *s)
{
    static const uint32_t types[] = { 0,   3,   255,     256,
                                      257, 258, 65536 + 2, UINT32_MAX };
    const uint32_t totals[] = { 0,
                                IND_X1_LEAST_LENGTH - 1,
                                IND_X1_LEAST_LENGTH,
                                IND_X2_LEAST_LENGTH,
                                IND_LARGEST_FILE,
                                IND_LARGEST_FILE + 1,
                                s->room,
                                s->room + 1,
                                total_of(s) + 65536,
                                UINT32_MAX };
    uint32_t identity[IND_IDENTITY_NUMBERS], lent = enough_room(s);
    uint32_t choice = draw(s->from, 8);
    memcpy(identity, s->identity, sizeof identity);
    if (choice < 3)
        identity[IND_TYPE_NUMBER] = ONE_OF(s->from, types);
    else if (once_in(s->from, 3))
        identity[IND_TYPE_NUMBER] = 1 + draw(s->from, 2);
    if (choice == 2 || (choice > 2 && choice < 6))
        identity[IND_TOTAL_NUMBER] = ONE_OF(s->from, totals);
    if (choice == 2 || choice > 5)
        lent = short_room(s);
    put_open(s, identity, lent);
}

/* The same identity once more. */
static void open_same(sending *s)
{
    open_own(s);
}

/* Another identity, a piece under it and one under the sender's; then the
 * sender's is opened again. */
static void open_other(sending *s)
{
    uint32_t own[IND_IDENTITY_NUMBERS];
    uint32_t which = draw(s->from, IND_IDENTITY_NUMBERS);
    memcpy(own, s->identity, sizeof own);
    if (which == IND_TYPE_NUMBER)
        s->identity[which] = IND_X1_TYPE + IND_X2_TYPE - own[which];
    else if (which == IND_TOTAL_NUMBER)
        s->identity[which]--;
    else
        s->identity[which] = changed(s->from, own[which]);
    open_own(s);
    if (once_in(s->from, 2))
        send_next(s, some_count(s));
    memcpy(s->identity, own, sizeof own);
    send_next(s, some_count(s));
    if (!once_in(s->from, 4))
        open_own(s);
}

static void finish_now(sending *s)
{
    put_finish(s, once_in(s->from, 3) ? short_room(s) : enough_room(s));
}

/* Something that goes wrong under way. */
static void go_wrong(sending *s)
{
    switch (draw(s->from, 16)) {
    case 0: finish_now(s); break;
    case 1:
    case 2: open_at_edge(s); break;
    case 3: open_same(s); break;
    case 4: open_other(s); break;
    case 5: send_random(s); break;
    default: send_wrong(s); break;
    }
}

/* ---- whole transfers */

/* How many pieces a transfer has at most before its rest is sent at once. */
static uint32_t pieces_most(const sending *s)
{
    enum { MANY = 200, SEVERAL = 24, FEW = 8, LARGE = 4000 };
    if (total_of(s) > LARGE)
        return FEW;
    return s->speed == PACE_ONES ? MANY : SEVERAL;
}

/* Sends pieces until so many bytes were taken, and what goes wrong between. */
static void send_up_to(sending *s, uint32_t place)
{
    uint32_t left = pieces_most(s);
    while (left-- > 0 && s->transfer.due < place && is_under_way(s)) {
        uint32_t count = left == 0 ? rest_of(s) : some_count(s);
        if (once_in(s->from, s->wrong_once_in))
            go_wrong(s);
        if (!is_under_way(s))
            return;
        if (count > place - s->transfer.due && place > s->transfer.due)
            count = place - s->transfer.due;
        send_next(s, count);
    }
}

/* Finishes, and goes on after that in some way. */
static void end_transfer(sending *s)
{
    if (once_in(s->from, 6))
        put_finish(s, short_room(s));
    put_finish(s, enough_room(s));
    switch (draw(s->from, 8)) {
    case 0: break;
    case 1: send_next(s, 1 + draw(s->from, 3)); break;
    case 2: send_wrong(s); break;
    case 3: open_at_edge(s); break;
    case 4: open_same(s); break;
    default: return;
    }
    put_finish(s, enough_room(s));
}

/* All of the file; where nothing is under way, a few pieces all the same. */
static void send_all(sending *s)
{
    uint32_t tries = 3;
    send_up_to(s, total_of(s));
    while (tries-- > 0 && !is_under_way(s))
        send_next(s, some_count(s));
    end_transfer(s);
}

static void faithful_story(sending *s)
{
    open_own(s);
    send_all(s);
}

/* The sender has another file, and gives its own identity. */
static void send_other(sending *s, const stored *file)
{
    s->file = file;
    identity_of(file->bytes, file->length, s->identity);
}

/* A few pieces from the next byte due on. */
static void send_few(sending *s)
{
    uint32_t pieces = 1 + draw(s->from, 3);
    while (pieces-- > 0)
        send_next(s, some_count(s));
}

/* One number of the identity is that of another file. */
static void take_one_number(sending *s, const stored *file)
{
    uint32_t others[IND_IDENTITY_NUMBERS];
    uint32_t which = draw(s->from, IND_IDENTITY_NUMBERS);
    identity_of(file->bytes, file->length, others);
    s->identity[which] = others[which];
}

/* The head of one data version, and then pieces of the other: with its own
 * identity, with the first one's forged on them, with one number not forged,
 * or after opening anew. */
static void versions_story(sending *s, const stored *one, const stored *other)
{
    uint32_t total = one->length;
    const uint32_t cuts[] = { 0,         1,         total / 2,
                              total / 2, total - 4, draw(s->from, total) };
    open_own(s);
    send_up_to(s, ONE_OF(s->from, cuts));
    switch (draw(s->from, 6)) {
    case 0:
        send_other(s, other);
        send_few(s);
        finish_now(s);
        send_other(s, one);
        break;
    case 1:
        s->file = other;
        take_one_number(s, other);
        send_few(s);
        identity_of(one->bytes, one->length, s->identity);
        break;
    case 2:
        send_other(s, other);
        open_own(s);
        break;
    case 3:
        open_own(s);
        send_few(s);
        s->file = other;
        break;
    default: s->file = other; break;
    }
    send_all(s);
}

/* Broken off for good: a part of the file, and then what goes wrong. */
static void abandoned_story(sending *s)
{
    uint32_t total = total_of(s), calls = draw(s->from, 4);
    const uint32_t cuts[] = { 0,         1,         total - 1,
                              total - 1, total - 4, draw(s->from, total) };
    open_own(s);
    send_up_to(s, ONE_OF(s->from, cuts));
    while (calls-- > 0)
        send_wrong(s);
    finish_now(s);
}

/* One number of the identity, in opening and pieces alike, isn't the file's. */
static void forged_story(sending *s)
{
    static const uint32_t stations[] = { 70000, 65536, UINT32_MAX };
    static const uint32_t lengths[] = { 1, 4, 13, 18 };
    uint32_t which = draw(s->from, IND_IDENTITY_NUMBERS);
    uint32_t *number = &s->identity[which];
    uint32_t more = 65536 * (1 + draw(s->from, 3));
    uint32_t length = ONE_OF(s->from, lengths);
    if (which == IND_TYPE_NUMBER)
        *number = IND_X1_TYPE + IND_X2_TYPE - *number;
    else if (which == IND_TOTAL_NUMBER)
        *number += once_in(s->from, 2) ? length : 0 - length;
    else if (once_in(s->from, 3) && which != IND_TRAILER_NUMBER)
        *number += more;
    else if (which == IND_STATION_NUMBER && once_in(s->from, 2))
        *number = ONE_OF(s->from, stations);
    else
        *number = changed(s->from, *number);
    faithful_story(s);
}

/* Nothing is opened, or an opening is refused, and what follows is refused
 * too. */
static void unopened_story(sending *s)
{
    uint32_t calls = 1 + draw(s->from, 5);
    while (calls-- > 0)
        switch (draw(s->from, 6)) {
        case 0: open_at_edge(s); break;
        case 1: finish_now(s); break;
        case 2: send_random(s); break;
        case 3: send_wrong(s); break;
        case 4: send_zeros(s); break;
        default: send_next(s, some_count(s)); break;
        }
    if (once_in(s->from, 3))
        faithful_story(s);
    else
        put_finish(s, enough_room(s));
}

/* Openings at the edges, one after another. */
static void openings_story(sending *s)
{
    uint32_t calls = 3 + draw(s->from, 6);
    while (calls-- > 0) {
        if (once_in(s->from, 3))
            open_own(s);
        else
            open_at_edge(s);
        if (once_in(s->from, 3))
            send_next(s, some_count(s));
        if (once_in(s->from, 4))
            finish_now(s);
    }
    faithful_story(s);
}

/* Calls of every kind in no order. */
static void hostile_story(sending *s)
{
    uint32_t calls = 4 + draw(s->from, 16);
    while (calls-- > 0) {
        if (once_in(s->from, 3) && rest_of(s) > 0)
            send_next(s, some_count(s));
        else if (once_in(s->from, 4))
            open_own(s);
        else
            go_wrong(s);
    }
    end_transfer(s);
}

/* ---- a case */

/* Room for what is sent: just enough, more, or now and then too little. */
static uint32_t some_room(source *from, uint32_t most)
{
    const uint32_t values[] = { most,     most,          most,
                                most + 1, most + 100,    LOAD_ROOM_MOST,
                                LOAD_ROOM_MOST - 1,      most + draw(from, 40),
                                most };
    uint32_t room = ONE_OF(from, values);
    if (once_in(from, 20))
        room = once_in(from, 2) ? most - 1 : draw(from, most);
    return room < LOAD_ROOM_MOST ? room : LOAD_ROOM_MOST;
}

/* A pace: single bytes only where a file is short. */
static pace some_pace(source *from, uint32_t length)
{
    enum { SHORT = 160 };
    static const pace values[] = { PACE_WHOLE, PACE_PARTS, PACE_PARTS,
                                   PACE_EDGES, PACE_FEW };
    pace chosen = ONE_OF(from, values);
    return once_in(from, 12) && length <= SHORT ? PACE_ONES : chosen;
}

static void tell(sending *s, const sent_files *files)
{
    /* Of a hundred, up to which number each story is told. */
    enum { FORGED = 20, UNOPENED = 28, OPENINGS = 36, HOSTILE = 46,
           ABANDONED = 60 };
    uint32_t choice = draw(s->from, 100);
    if (files->other != NULL && !once_in(s->from, 6))
        versions_story(s, files->file, files->other);
    else if (choice < FORGED)
        forged_story(s);
    else if (choice < UNOPENED)
        unopened_story(s);
    else if (choice < OPENINGS)
        openings_story(s);
    else if (choice < HOSTILE)
        hostile_story(s);
    else if (choice < ABANDONED)
        abandoned_story(s);
    else
        faithful_story(s);
}

void some_calls(source *from, const sent_files *files, asked *ask)
{
    static const uint32_t rates[] = { 2, 3, 4, 6, 1000 };
    uint32_t most = files->file->length;
    sending s;
    memset(&s, 0, sizeof s);
    if (files->other != NULL && files->other->length > most)
        most = files->other->length;
    s.from = from;
    s.calls = &ask->calls;
    s.calls->length = 0;
    s.file = files->file;
    identity_of(s.file->bytes, s.file->length, s.identity);
    s.room = ask->numbers[LOAD_ROOM] = some_room(from, most);
    s.speed = some_pace(from, most);
    s.wrong_once_in = ONE_OF(from, rates);
    if (s.speed == PACE_ONES)
        s.wrong_once_in *= 10;
    tell(&s, files);
}
