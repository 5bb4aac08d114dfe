/* Ways ahead: from every kind of object, by lies that lead far or stop soon,
 * and each way in which the question itself can be wrong. */
#include "ahead.h"

#include "core/core.h"
#include "questions.h"

/* ---- turnout numbers */

static void lay_out_of(const stored *file, ind_layout *layout)
{
    ind_application_layout(file->bytes, ind_end(file->length), layout);
}

void share_numbers(source *from, stored *file)
{
    uint32_t base = draw(from, IND_LARGEST_TRACK - 1);
    uint32_t numbers = 1 + draw(from, 2);
    ind_layout layout;
    lay_out_of(file, &layout);
    if (!once_in(from, 3))
        return;
    for (uint32_t turnout = layout.from[IND_TURNOUT];
         turnout < layout.to[IND_TURNOUT]; turnout += IND_TURNOUT_SIZE)
        file->bytes[turnout + IND_TURNOUT_NUMBER] =
            (uint8_t)(base + 1 + draw(from, numbers));
    seal(file);
}

/* ---- the object last passed */

static int is_member(const uint8_t *bytes, ind_object record)
{
    return record.kind == IND_BALISE
        && ind_balise_place(bytes, record.start) > 1;
}

static int is_siding(const uint8_t *bytes, ind_object record)
{
    (void)bytes;
    return record.kind == IND_SIDING;
}

/* The start of a record that a test passes, each as likely as another; the
 * offset given where there is none. */
static uint32_t some_that(source *from, const stored *file,
                          const ind_layout *layout,
                          int (*passes)(const uint8_t *bytes,
                                        ind_object record),
                          uint32_t none)
{
    uint32_t chosen = none, passed = 0;
    ind_object record = { IND_START_BOUNDARY, layout->header };
    while (record.start < layout->end) {
        record.kind = ind_kind_at(layout, record.start);
        if (passes(file->bytes, record) && once_in(from, ++passed))
            chosen = record.start;
        record.start += ind_record_size(file->bytes, record);
    }
    return chosen;
}

/* An object that can be passed, each kind as likely as another. */
static ind_object some_passed(source *from, const stored *file,
                              const ind_layout *layout)
{
    ind_object record;
    do
        record = some_record(from, file, layout);
    while (is_siding(file->bytes, record) || is_member(file->bytes, record));
    return record;
}

/* ---- lies */

/* Lies of a kind: all alike, any, or any known ones with few unknown. */
static void some_lies(source *from, uint8_t lies[LIES_ROOM])
{
    enum { LIE_KINDS = IND_LIE_UNKNOWN + 1, UNKNOWN_ONE_IN = 12 };
    uint32_t kind = draw(from, 2 * LIE_KINDS);
    for (uint32_t i = 0; i < LIES_ROOM; i++) {
        lies[i] = (uint8_t)draw(from, LIE_KINDS);
        if (kind < LIE_KINDS)
            lies[i] = (uint8_t)kind;
        else if (kind > LIE_KINDS)
            lies[i] = (uint8_t)(once_in(from, UNKNOWN_ONE_IN)
                                    ? IND_LIE_UNKNOWN
                                    : draw(from, IND_LIE_UNKNOWN));
    }
}

/* What lies ahead by the lies as they are, with room enough. The number of the
 * last turnout of the list is given back, 0 where it has none. */
static ind_stop by_lies(const asked *ask, uint32_t *number)
{
    const uint8_t *bytes = ask->files[1].bytes;
    uint8_t out[IND_AHEAD_ROOM];
    ind_layout layout;
    ind_ahead found = ind_ahead_of(
        ask->files[0].bytes, ask->files[0].length, bytes,
        ask->files[1].length, ask->numbers[AHEAD_OFFSET],
        ask->numbers[AHEAD_LINK], ask->lies, IND_LIES, out, sizeof out);
    lay_out_of(&ask->files[1], &layout);
    *number = 0;
    for (uint32_t i = 0; i < found.objects; i++) {
        uint32_t object = ind_two(out, IND_OFFSET_SIZE * i);
        if (ind_turnout_at(&layout, object))
            *number = bytes[object + IND_TURNOUT_NUMBER];
    }
    return found.stop;
}

/* Where the way stops at a turnout, its lie becomes one by which the way
 * goes on, so many times, so that long ways are followed. */
static void open_way(source *from, asked *ask, uint32_t turns)
{
    uint32_t number;
    ind_stop stop = by_lies(ask, &number);
    while (turns-- > 0
           && (stop == IND_STOP_UNKNOWN_LIE
               || stop == IND_STOP_AGAINST_LIE)) {
        uint8_t *lie = &ask->lies[number];
        if (stop == IND_STOP_UNKNOWN_LIE)
            *lie = (uint8_t)draw(from, IND_LIE_UNKNOWN);
        else if (once_in(from, 4))
            *lie = IND_LIE_UNKNOWN;
        else
            *lie = IND_LIE_REVERSE - *lie;
        stop = by_lies(ask, &number);
    }
}

/* The last turnout of the way lies otherwise. */
static void turn_last(source *from, asked *ask)
{
    uint32_t number;
    uint8_t *lie;
    by_lies(ask, &number);
    lie = &ask->lies[number];
    *lie = *lie == IND_LIE_UNKNOWN || once_in(from, 2)
        ? (uint8_t)draw(from, IND_LIE_UNKNOWN + 1)
        : IND_LIE_UNKNOWN;
}

/* ---- what is refused */

static uint32_t bad_offset(source *from, const stored *file,
                           const ind_layout *layout)
{
    uint32_t start = some_record(from, file, layout).start;
    uint32_t any = draw(from, file->length);
    const uint32_t values[] = { start - 1,          start + 1,
                                start + 2,          start + 4,
                                start + 12,         start + 16,
                                any,                0,
                                1,                  layout->header - 1,
                                layout->end - 1,    layout->end,
                                file->length,       file->length + 1,
                                IND_LARGEST_OF_TWO, IND_LARGEST_OF_TWO + 1,
                                start + 65536,      start + 0x80000000,
                                0xFFFFFFFF };
    return ONE_OF(from, values);
}

/* A link that the object hasn't: just beyond its last, or one that a shorter
 * number would take for its own. */
static uint32_t bad_link(source *from, ind_object passed)
{
    uint32_t links = ind_links(passed.kind);
    uint32_t good = draw(from, links);
    const uint32_t values[] = { links + 1,    255,
                                good + 256,   good + 65536,
                                0xFFFFFFFF,   good + 0x80000000 };
    return once_in(from, 2) ? links : ONE_OF(from, values);
}

/* One lie that is none of the three, at the first byte or the last, at the
 * number of a turnout or anywhere. */
static void put_bad_lie(source *from, asked *ask, const ind_layout *layout)
{
    static const uint8_t values[] = { 3, 3, 4, 128, 255 };
    uint32_t turnouts = (layout->to[IND_TURNOUT] - layout->from[IND_TURNOUT])
        / IND_TURNOUT_SIZE;
    uint32_t turnout =
        layout->from[IND_TURNOUT] + IND_TURNOUT_SIZE * draw(from, turnouts);
    uint32_t place = draw(from, IND_LIES);
    switch (draw(from, 4)) {
    case 0: place = 0; break;
    case 1: place = IND_LIES - 1; break;
    case 2:
        if (turnouts > 0)
            place = ask->files[1].bytes[turnout + IND_TURNOUT_NUMBER];
        break;
    default: break;
    }
    ask->lies[place] = ONE_OF(from, values);
}

/* One thing wrong with the question. */
static void spoil_question(source *from, asked *ask, ind_object passed,
                           const ind_layout *layout)
{
    static const uint32_t counts[] = { 0, 1, IND_LIES - 1, IND_LIES + 1,
                                       LIES_ROOM };
    const stored *file = &ask->files[1];
    uint32_t *n = ask->numbers;
    uint32_t offset = bad_offset(from, file, layout);
    switch (draw(from, 7)) {
    case 0: n[AHEAD_OFFSET] = offset; break;
    case 1:
        n[AHEAD_OFFSET] = some_that(from, file, layout, is_siding, offset);
        break;
    case 2:
        n[AHEAD_OFFSET] = some_that(from, file, layout, is_member, offset);
        break;
    case 3: n[AHEAD_LINK] = bad_link(from, passed); break;
    case 4: n[AHEAD_LIES] = ONE_OF(from, counts); break;
    default: put_bad_lie(from, ask, layout); break;
    }
}

static uint32_t some_room(source *from)
{
    static const uint32_t small[] = { 0, 1, IND_AHEAD_ROOM - 2,
                                      IND_AHEAD_ROOM - 1 };
    static const uint32_t enough[] = { IND_AHEAD_ROOM, IND_AHEAD_ROOM,
                                       IND_AHEAD_ROOM + 1, 200, 256,
                                       ROOM_LARGEST };
    return once_in(from, 10) ? ONE_OF(from, small) : ONE_OF(from, enough);
}

void some_way_ahead(source *from, uint32_t first, asked *ask)
{
    enum { TURNS_MOST = 40 };
    const stored *file = &ask->files[1];
    ind_layout layout;
    ind_object passed;
    lay_out_of(file, &layout);
    passed = some_passed(from, file, &layout);
    if (first != 0 && !once_in(from, 8))
        passed = (ind_object){ ind_kind_at(&layout, first), first };
    ask->numbers[AHEAD_OFFSET] = passed.start;
    ask->numbers[AHEAD_LINK] = draw(from, ind_links(passed.kind));
    ask->numbers[AHEAD_LIES] = IND_LIES;
    ask->numbers[AHEAD_BYTES] = some_room(from);
    some_lies(from, ask->lies);
    if (!once_in(from, 4))
        open_way(from, ask, draw(from, TURNS_MOST));
    if (once_in(from, first != 0 ? 2 : 4))
        turn_last(from, ask);
    if (once_in(from, 4))
        spoil_question(from, ask, passed, &layout);
    if (once_in(from, 20))
        spoil_question(from, ask, passed, &layout);
}
