/* Damage aimed at X.1: structure version, layout, fields, agreement. */
#include "damage.h"

#include <string.h>

#include "core/core.h"
#include "make.h"

static uint32_t other_size(uint32_t point_size)
{
    return point_size == IND_POINT_SIZE_1 ? IND_POINT_SIZE_2
                                          : IND_POINT_SIZE_1;
}

/* A signed value at, beside or far beyond a limit, or beside the old one. */
static uint32_t edge_coordinate(source *from, int64_t old, int64_t limit)
{
    const int64_t values[] = { limit,     limit + 1, -limit,    -limit - 1,
                               limit - 1, 1 - limit, INT32_MAX, INT32_MIN,
                               old + 1,   old - 1,   0,         old + 1 };
    return (uint32_t)ONE_OF(from, values);
}

static void damage_count(source *from, stored *file, uint32_t end)
{
    uint32_t tracks = ind_tracks(file->bytes);
    uint32_t fitting = (end - IND_TRACKS_PLACE) / IND_TRACK_SIZE;
    const uint32_t values[] = { 0, tracks - 1, tracks + 1, 255, fitting,
                                fitting + 1 };
    file->bytes[IND_TRACK_COUNT_PLACE] = (uint8_t)ONE_OF(from, values);
}

/* Offsets of a track whose points have this size. */
static void damage_offsets(source *from, uint32_t size, uint8_t *entry,
                           uint32_t end)
{
    uint32_t first = ind_two(entry, IND_TRACK_FIRST_POINT);
    uint32_t last = ind_two(entry, IND_TRACK_LAST_POINT);
    const uint32_t lasts[] = { first,
                               first + 1,
                               first - size,
                               first + other_size(size),
                               last + 1,
                               last - 1,
                               last + size,
                               last - size,
                               end - size,
                               end - size + 1,
                               end - other_size(size),
                               end,
                               IND_LARGEST_FILE,
                               IND_LARGEST_FILE - size,
                               0 };
    if (once_in(from, 2))
        put_two(entry, IND_TRACK_FIRST_POINT, edge_offset(from, first, end));
    else
        put_two(entry, IND_TRACK_LAST_POINT, ONE_OF(from, lasts));
}

static void damage_number(source *from, stored *file, uint32_t track)
{
    uint8_t old = file->bytes[track];
    uint8_t before = old, after = old;
    uint8_t chosen;
    if (track > IND_TRACKS_PLACE)
        before = file->bytes[track - IND_TRACK_SIZE];
    if (track + IND_TRACK_SIZE < ind_track_place(ind_tracks(file->bytes)))
        after = file->bytes[track + IND_TRACK_SIZE];
    {
        const uint8_t values[] = { 0, before, (uint8_t)(before - 1), after,
                                   255, 1 };
        chosen = ONE_OF(from, values);
    }
    file->bytes[track + IND_TRACK_NUMBER] = chosen;
}

static void damage_latitude(source *from, uint8_t *record, uint32_t field)
{
    int32_t old = ind_signed_four(record, field);
    put_four(record, field,
             edge_coordinate(from, old, IND_LATITUDE_LIMIT));
}

static void damage_longitude(source *from, uint8_t *record, uint32_t field)
{
    int32_t old = ind_signed_four(record, field);
    put_four(record, field,
             edge_coordinate(from, old, IND_LONGITUDE_LIMIT));
}

static void damage_position(source *from, uint8_t *record, uint32_t field)
{
    put_four(record, field, edge_position(from, ind_four(record, field)));
}

static void damage_track(source *from, stored *file, uint32_t track)
{
    static const uint8_t properties[] = { 0, 1, 5, 6, 255 };
    static const uint32_t starts[] = { 1, 256, 0x80000000, 0xFFFFFFFF };
    uint8_t *entry = file->bytes + track;
    switch (draw(from, 8)) {
    case 0: damage_number(from, file, track); break;
    case 1: entry[IND_TRACK_PROPERTY] = ONE_OF(from, properties); break;
    case 2:
        put_four(entry, IND_TRACK_START_POSITION, ONE_OF(from, starts));
        break;
    case 3: damage_latitude(from, entry, IND_TRACK_START_LATITUDE); break;
    case 4: damage_longitude(from, entry, IND_TRACK_START_LONGITUDE); break;
    case 5: damage_position(from, entry, IND_TRACK_END_POSITION); break;
    case 6: damage_latitude(from, entry, IND_TRACK_END_LATITUDE); break;
    default: damage_longitude(from, entry, IND_TRACK_END_LONGITUDE); break;
    }
}

/* An increment beside the old one, or such that start plus increment is at
 * or just beyond the coordinate's limit. */
static void damage_increment(source *from, uint8_t *point, uint32_t field,
                             int64_t start, int64_t limit)
{
    int64_t old = ind_signed_three(point, field);
    const int64_t values[] = { old + 1,           old - 1,
                               0,                 limit - start,
                               limit - start + 1, -limit - start,
                               -limit - start - 1, IND_INCREMENT_LARGEST,
                               IND_INCREMENT_LEAST };
    put_three(point, field, (uint32_t)ONE_OF(from, values));
}

/* A position beside the old one or beside that of the point before, whose
 * place is so many bytes lower; by none where there is no point before. */
static void damage_point_position(source *from, uint8_t *point,
                                  uint32_t lower)
{
    uint32_t old = ind_four(point, IND_POINT_POSITION);
    uint32_t before = ind_four(point - lower, IND_POINT_POSITION);
    switch (draw(from, 3)) {
    case 0: put_four(point, IND_POINT_POSITION, before); break;
    case 1: put_four(point, IND_POINT_POSITION, before - 1); break;
    default:
        put_four(point, IND_POINT_POSITION, edge_position(from, old));
        break;
    }
}

/* A point and its track, by their places. Another height is as right as the
 * old one. */
static void damage_point(source *from, stored *file, uint32_t track,
                         uint32_t place)
{
    static const int32_t headings[] = { IND_HEADING_LIMIT,
                                        IND_HEADING_LIMIT + 1,
                                        -IND_HEADING_LIMIT,
                                        -IND_HEADING_LIMIT - 1,
                                        INT16_MAX,
                                        INT16_MIN };
    static const uint8_t nears[] = { 0, 1, 2, 255, 128 };
    const uint8_t *entry = file->bytes + track;
    uint8_t *point = file->bytes + place;
    int first = place == ind_first_point(file->bytes, track);
    int32_t latitude = ind_signed_four(entry, IND_TRACK_START_LATITUDE);
    int32_t longitude = ind_signed_four(entry, IND_TRACK_START_LONGITUDE);
    switch (draw(from, ind_has_heights(file->bytes) ? 7 : 6)) {
    case 0:
        damage_point_position(from, point,
                              first ? 0 : ind_point_size(file->bytes));
        break;
    case 1:
        damage_increment(from, point, IND_POINT_LATITUDE, latitude,
                         IND_LATITUDE_LIMIT);
        break;
    case 2:
        damage_increment(from, point, IND_POINT_LONGITUDE, longitude,
                         IND_LONGITUDE_LIMIT);
        break;
    case 3:
        put_two(point, IND_POINT_HEADING, (uint32_t)ONE_OF(from, headings));
        break;
    case 4: point[IND_POINT_NEAR] ^= 1; break;
    case 5: point[IND_POINT_NEAR] = ONE_OF(from, nears); break;
    default: put_two(point, IND_POINT_HEIGHT, some_height(from)); break;
    }
}

/* The first, second or last point of a track, or any. */
static uint32_t some_point(source *from, const stored *file, uint32_t track)
{
    uint32_t any = draw(from, ind_points(file->bytes, track));
    switch (draw(from, 4)) {
    case 0: return ind_first_point(file->bytes, track);
    case 1: return ind_point_place(file->bytes, track, 1);
    case 2: return ind_last_point(file->bytes, track);
    default: return ind_point_place(file->bytes, track, any);
    }
}

void poke_geography(source *from, stored *file)
{
    uint32_t track = ind_track_place(draw(from, ind_tracks(file->bytes)));
    uint32_t point = some_point(from, file, track);
    uint32_t choice = draw(from, 20);
    if (choice == 0)
        damage_opening(from, file);
    else if (choice < 10)
        damage_track(from, file, track);
    else
        damage_point(from, file, track, point);
}

/* The other of the two structure versions, and nothing else. */
static void swap_version(stored *file)
{
    put_two(file->bytes, IND_STRUCTURE_VERSION_PLACE,
            ind_has_heights(file->bytes) ? IND_VERSION_1 : IND_VERSION_2);
}

/* Where a point of this size goes, if points have the other size; the first of
 * the file stays where it is. */
static uint32_t moved(uint32_t place, uint32_t first, uint32_t size)
{
    return first + (place - first) / size * other_size(size);
}

/* All points moved there, the first of them at a place, with any heights. */
static void move_points(source *from, stored *file, uint32_t first,
                        uint32_t size)
{
    static stored old;
    uint32_t end = ind_end(file->length);
    memcpy(old.bytes, file->bytes, file->length);
    for (uint32_t place = first; place + size <= end; place += size) {
        uint8_t *point = file->bytes + moved(place, first, size);
        memcpy(point, old.bytes + place, IND_POINT_SIZE_1);
        if (size == IND_POINT_SIZE_1)
            put_two(point, IND_POINT_HEIGHT, some_height(from));
    }
    file->length = moved(end, first, size) + IND_CHECKSUM_SIZE;
}

/* The whole file laid out with points of the other version's size, if that is
 * not too long; now and then it has that version too, and is right. */
static void lay_out_otherwise(source *from, stored *file)
{
    uint32_t size = ind_point_size(file->bytes);
    uint32_t first = ind_track_place(ind_tracks(file->bytes));
    if (moved(ind_end(file->length), first, size) + IND_CHECKSUM_SIZE
        > IND_LARGEST_FILE)
        return;
    move_points(from, file, first, size);
    for (uint32_t track = IND_TRACKS_PLACE; track < first;
         track += IND_TRACK_SIZE) {
        put_two(file->bytes, track + IND_TRACK_FIRST_POINT,
                moved(ind_first_point(file->bytes, track), first, size));
        put_two(file->bytes, track + IND_TRACK_LAST_POINT,
                moved(ind_last_point(file->bytes, track), first, size));
    }
    if (once_in(from, 4))
        swap_version(file);
}

/* Around the two least lengths: mostly of version 2, now and then of the other
 * type. */
static void shorten(source *from, stored *file)
{
    uint32_t length = (uint32_t)draw_between(from, IND_X1_LEAST_LENGTH - 1,
                                             IND_X1_LEAST_LENGTH_2);
    while (file->length < length)
        file->bytes[file->length++] = 0;
    file->length = length;
    if (once_in(from, 3))
        damage_version(from, file);
    else
        put_two(file->bytes, IND_STRUCTURE_VERSION_PLACE, IND_VERSION_2);
    if (once_in(from, 6))
        swap_type(file);
}

void break_geography(source *from, stored *file)
{
    uint32_t end = file->length - IND_CHECKSUM_SIZE;
    uint32_t track = ind_track_place(draw(from, ind_tracks(file->bytes)));
    switch (draw(from, 8)) {
    case 0: damage_count(from, file, end); break;
    case 1: change_length(from, file); break;
    case 2: damage_version(from, file); break;
    case 3: swap_version(file); break;
    case 4: lay_out_otherwise(from, file); break;
    case 5: shorten(from, file); break;
    default:
        damage_offsets(from, ind_point_size(file->bytes),
                       file->bytes + track, end);
        break;
    }
}
