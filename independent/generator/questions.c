/* What to ask of a right file. */
#include "questions.h"

#include "asked.h"
#include "core/core.h"

/* An index below a count, at it, beyond it, or one that a shorter number
 * would take for a good one. */
static uint32_t some_index(source *from, uint32_t count)
{
    uint32_t good = draw(from, count);
    const uint32_t values[] = { good,      0,
                                count - 1, count,
                                good,      count + 1,
                                good,      good + 256,
                                good,      good + 65536,
                                good,      0xFFFFFFFF };
    return ONE_OF(from, values);
}

uint32_t some_track_index(source *from, const stored *file)
{
    return some_index(from, ind_tracks(file->bytes));
}

void some_point_index(source *from, const stored *file, uint32_t *numbers)
{
    uint32_t track = draw(from, ind_tracks(file->bytes));
    numbers[1] =
        some_index(from, ind_points(file->bytes, ind_track_place(track)));
    numbers[0] = once_in(from, 6) ? some_track_index(from, file) : track;
}

uint32_t some_entry(source *from, const stored *file)
{
    uint32_t tracks = ind_tracks(file->bytes);
    return once_in(from, 3) ? tracks - 1 : draw(from, tracks);
}

uint32_t end_of_track(const stored *file, uint32_t index)
{
    return index < ind_tracks(file->bytes)
        ? ind_four(file->bytes,
                   ind_track_place(index) + IND_TRACK_END_POSITION)
        : 0;
}

/* A position at, beside or between two neighbouring points, or at or beyond
 * the track's end or that of one of the two whose entries stand beside its
 * own. */
static uint32_t position_on(source *from, const stored *file, uint32_t index)
{
    uint32_t track = ind_track_place(index);
    uint32_t at = draw(from, ind_points(file->bytes, track) - 1);
    uint32_t low =
        ind_four(file->bytes, ind_point_place(file->bytes, track, at));
    uint32_t high =
        ind_four(file->bytes, ind_point_place(file->bytes, track, at + 1));
    uint32_t end = end_of_track(file, index);
    uint32_t before = end_of_track(file, index - 1);
    uint32_t after = end_of_track(file, index + 1);
    uint32_t between = (uint32_t)draw_between(from, low, high);
    uint32_t middle = low + (high - low) / 2;
    const uint32_t values[] = { low,     low + 1,    high,       high - 1,
                                between, between,    between,    middle,
                                between, between,    end,        end + 1,
                                0,       end - 1,    0x80000000, 0xFFFFFFFF,
                                before,  before + 1, after,      after + 1 };
    return ONE_OF(from, values);
}

/* The number of a track, or one beside it, at its place in another word of 64
 * numbers, at the edge of all numbers, any, or one that a shorter number
 * would take for its own. */
static uint32_t some_number(source *from, uint32_t number)
{
    uint32_t any = draw(from, 256);
    const uint32_t others[] = { number + 1,          number - 1,
                                number ^ 64,         number ^ 128,
                                any,                 0,
                                255,                 256,
                                number + 256,        number + 65536,
                                number + 0x80000000, 0xFFFFFFFF };
    return once_in(from, 4) ? ONE_OF(from, others) : number;
}

void some_position(source *from, const stored *file, uint32_t *numbers)
{
    uint32_t index = some_entry(from, file);
    numbers[1] = position_on(from, file, index);
    numbers[0] = some_number(
        from, file->bytes[ind_track_place(index) + IND_TRACK_NUMBER]);
}

ind_object some_record(source *from, const stored *file,
                       const ind_layout *layout)
{
    int kind = (int)draw_between(from, IND_START_BOUNDARY, IND_SIDING);
    ind_object record;
    uint32_t place;
    while (layout->from[kind] == layout->to[kind])
        kind = kind == IND_SIDING ? IND_START_BOUNDARY : kind + 1;
    place = (uint32_t)draw_between(from, layout->from[kind],
                                   layout->to[kind] - 1);
    record = (ind_object){ (ind_kind)kind, layout->from[kind] };
    while (record.start + ind_record_size(file->bytes, record) <= place)
        record.start += ind_record_size(file->bytes, record);
    return record;
}

uint32_t some_start(source *from, const stored *file)
{
    ind_layout layout;
    ind_application_layout(file->bytes, file->length - IND_CHECKSUM_SIZE,
                           &layout);
    return some_record(from, file, &layout).start;
}

uint32_t some_offset(source *from, const stored *file)
{
    uint32_t start = some_start(from, file);
    uint32_t length = file->length;
    uint32_t any = draw(from, length);
    const uint32_t values[] = { start - 1,     start + 1,
                                start + 2,     start + 12,
                                start + 16,    any,
                                0,             23,
                                length,        length - IND_CHECKSUM_SIZE,
                                start + 65536, 0xFFFFFFFF };
    return once_in(from, 4) ? ONE_OF(from, values) : start;
}

/* A boundary of either kind; now and then no boundary. */
static uint32_t some_listing_start(source *from, const stored *file)
{
    ind_layout layout;
    uint32_t which;
    ind_application_layout(file->bytes, file->length - IND_CHECKSUM_SIZE,
                           &layout);
    which = draw(from, layout.starts + layout.ends);
    if (once_in(from, 20))
        return some_offset(from, file);
    return layout.header + IND_BOUNDARY_SIZE * which;
}

/* A limit; where ways are as long as one, mostly at the edges. */
static uint32_t some_limit(source *from, int long_ways)
{
    static const uint32_t edges[] = { 0,   0,   0,   2,   3,   8,  63, 64,
                                      65,  159, 160, 161, 511, 512 };
    static const uint32_t bad[] = { 1, 513, 65536, 65536 + 160, 0xFFFFFFFF };
    if (once_in(from, 25))
        return ONE_OF(from, bad);
    if (long_ways && !once_in(from, 3))
        return ONE_OF(from, edges);
    switch (draw(from, 3)) {
    case 0: return 0;
    case 1: return ONE_OF(from, edges);
    default: return 2 + draw(from, once_in(from, 4) ? 60 : 20);
    }
}

/* A budget at or beside the number of walks, at or beside its range. Walks
 * are 0 where they are too many, or the list too long. */
static uint32_t some_budget(source *from, uint32_t walks)
{
    const uint32_t values[] = { walks - 1, walks,     walks,
                                walks,     walks + 1, walks + 1,
                                IND_LARGEST_BUDGET,   IND_LARGEST_BUDGET,
                                IND_LARGEST_BUDGET,   walks / 2 };
    static const uint32_t bad[] = { 0, 65536, 65537, 0xFFFFFFFF };
    if (once_in(from, 20))
        return ONE_OF(from, bad);
    if (walks == 0 && !once_in(from, 4))
        return IND_LARGEST_BUDGET;
    return ONE_OF(from, values);
}

/* Room at or beside the words needed. */
static uint32_t some_room(source *from, uint32_t words)
{
    const uint32_t values[] = { words - 1, words,        words,
                                words + 1, ROOM_LARGEST, ROOM_LARGEST,
                                0 };
    uint32_t room = ONE_OF(from, values);
    return room > ROOM_LARGEST ? ROOM_LARGEST : room;
}

void some_listing(source *from, const stored *file, int long_ways,
                  uint32_t *numbers)
{
    static ind_walks walks;
    static uint16_t words[ROOM_LARGEST];
    ind_routes needed;
    numbers[0] = some_listing_start(from, file);
    numbers[1] = some_limit(from, long_ways);
    needed = ind_routes_from(file->bytes, file->length, numbers[0],
                             numbers[1], IND_LARGEST_BUDGET, words,
                             ROOM_LARGEST, &walks);
    numbers[2] = some_budget(from, needed.walks);
    numbers[3] = some_room(from, needed.words);
}
