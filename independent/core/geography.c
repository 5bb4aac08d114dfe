/* 01, 'X.1, track geography': the verdict. What is about points is written
 * once, for points of any size. */
#include "geography.h"

/* Layout of one track, its points due at a place: the faulty field. */
static uint32_t track_layout_fault(const uint8_t *file, uint32_t size,
                                   uint32_t track, uint32_t due, uint32_t end)
{
    uint32_t first = ind_first_point(file, track);
    uint32_t last = ind_last_point(file, track);
    if (first != due)
        return track + IND_TRACK_FIRST_POINT;
    if (last <= first || (last - first) % size != 0 || last + size > end)
        return track + IND_TRACK_LAST_POINT;
    return IND_NO_FAULT;
}

static uint32_t layout_fault(const uint8_t *file, uint32_t size, uint32_t end)
{
    uint32_t tracks = ind_tracks(file);
    uint32_t due = ind_track_place(tracks);
    if (tracks == 0 || due > end)
        return IND_TRACK_COUNT_PLACE;
    for (uint32_t i = 0; i < tracks; i++) {
        uint32_t track = ind_track_place(i);
        uint32_t fault = track_layout_fault(file, size, track, due, end);
        if (fault != IND_NO_FAULT)
            return fault;
        due = ind_last_point(file, track) + size;
    }
    return due == end ? IND_NO_FAULT : due;
}

/* Whether a number in two's complement lies from -limit to limit. */
static int within(uint32_t value, uint32_t limit)
{
    return value + limit <= 2 * limit;
}

static int latitude_right(const uint8_t *track, uint32_t field)
{
    return within(ind_four(track, field), IND_LATITUDE_LIMIT);
}

static int longitude_right(const uint8_t *track, uint32_t field)
{
    return within(ind_four(track, field), IND_LONGITUDE_LIMIT);
}

/* The faulty field of a track's entry, as its place in the entry. */
static uint32_t track_field_fault(const uint8_t *track)
{
    uint8_t property = track[IND_TRACK_PROPERTY];
    if (track[IND_TRACK_NUMBER] == 0)
        return IND_TRACK_NUMBER;
    if (property < IND_LEAST_PROPERTY || property > IND_LARGEST_PROPERTY)
        return IND_TRACK_PROPERTY;
    if (ind_four(track, IND_TRACK_START_POSITION) != IND_START_POSITION)
        return IND_TRACK_START_POSITION;
    if (!latitude_right(track, IND_TRACK_START_LATITUDE))
        return IND_TRACK_START_LATITUDE;
    if (!longitude_right(track, IND_TRACK_START_LONGITUDE))
        return IND_TRACK_START_LONGITUDE;
    if (ind_four(track, IND_TRACK_END_POSITION) > IND_LARGEST_POSITION)
        return IND_TRACK_END_POSITION;
    if (!latitude_right(track, IND_TRACK_END_LATITUDE))
        return IND_TRACK_END_LATITUDE;
    if (!longitude_right(track, IND_TRACK_END_LONGITUDE))
        return IND_TRACK_END_LONGITUDE;
    return IND_NO_FAULT;
}

static uint32_t position_of(const uint8_t *point)
{
    return ind_four(point, IND_POINT_POSITION);
}

/* From -limit to limit, a number of two bytes. */
static int heading_right(const uint8_t *point)
{
    uint32_t heading = ind_two(point, IND_POINT_HEADING);
    return ((heading + IND_HEADING_LIMIT) & IND_LARGEST_OF_TWO)
        <= 2 * IND_HEADING_LIMIT;
}

static int near_right(const uint8_t *point)
{
    return point[IND_POINT_NEAR] <= IND_LARGEST_NEAR;
}

/* The faulty field of a point, as its place in the point. */
static uint32_t point_field_fault(const uint8_t *point)
{
    if (position_of(point) > IND_LARGEST_POSITION)
        return IND_POINT_POSITION;
    if (!heading_right(point))
        return IND_POINT_HEADING;
    if (!near_right(point))
        return IND_POINT_NEAR;
    return IND_NO_FAULT;
}

/* Fields of the header and of all entries. */
static uint32_t entry_field_fault(const uint8_t *file)
{
    uint32_t points = ind_track_place(ind_tracks(file));
    uint32_t fault = ind_opening_field_fault(file);
    if (fault != IND_NO_FAULT)
        return fault;
    for (uint32_t track = IND_TRACKS_PLACE; track < points;
         track += IND_TRACK_SIZE) {
        fault = track_field_fault(file + track);
        if (fault != IND_NO_FAULT)
            return track + fault;
    }
    return IND_NO_FAULT;
}

/* Fields of all points. */
static uint32_t points_field_fault(const uint8_t *file, uint32_t size,
                                   uint32_t end)
{
    for (uint32_t point = ind_track_place(ind_tracks(file)); point < end;
         point += size) {
        uint32_t fault = point_field_fault(file + point);
        if (fault != IND_NO_FAULT)
            return point + fault;
    }
    return IND_NO_FAULT;
}

/* A point's increments in two's complement. */
static uint32_t north_of(const uint8_t *point)
{
    return ind_extended(ind_three(point, IND_POINT_LATITUDE),
                        3 * IND_BITS_PER_BYTE);
}

static uint32_t east_of(const uint8_t *point)
{
    return ind_extended(ind_three(point, IND_POINT_LONGITUDE),
                        3 * IND_BITS_PER_BYTE);
}

/* The first point has position and both increments 0, and its near flag
 * equals the second's. */
static int first_point_right(const uint8_t *point, uint32_t size)
{
    const uint8_t *second = point + size;
    return position_of(point) == IND_START_POSITION && north_of(point) == 0
        && east_of(point) == 0
        && point[IND_POINT_NEAR] == second[IND_POINT_NEAR];
}

/* The last point equals the track's end position, latitude and longitude. */
static int last_point_right(const uint8_t *track, const uint8_t *point)
{
    return position_of(point) == ind_four(track, IND_TRACK_END_POSITION)
        && ind_four(track, IND_TRACK_START_LATITUDE) + north_of(point)
            == ind_four(track, IND_TRACK_END_LATITUDE)
        && ind_four(track, IND_TRACK_START_LONGITUDE) + east_of(point)
            == ind_four(track, IND_TRACK_END_LONGITUDE);
}

/* Start plus increment stays in the coordinate's range. */
static int point_in_range(const uint8_t *track, const uint8_t *point)
{
    return within(ind_four(track, IND_TRACK_START_LATITUDE) + north_of(point),
                  IND_LATITUDE_LIMIT)
        && within(ind_four(track, IND_TRACK_START_LONGITUDE) + east_of(point),
                  IND_LONGITUDE_LIMIT);
}

/* The track starts so far inside both ranges that no increment leads out. */
static int all_in_range(const uint8_t *track)
{
    return within(ind_four(track, IND_TRACK_START_LATITUDE),
                  IND_LATITUDE_LIMIT + IND_INCREMENT_LEAST)
        && within(ind_four(track, IND_TRACK_START_LONGITUDE),
                  IND_LONGITUDE_LIMIT + IND_INCREMENT_LEAST);
}

/* The first point after a track's first in which a field or the agreement is
 * wrong, NULL if there is none. A position may be too large without notice:
 * then a later one does not rise, or the last is not the track's end. */
static inline const uint8_t *wrong_after(const uint8_t *track, uint32_t size,
                                         const uint8_t *first,
                                         const uint8_t *last, int in_range)
{
    uint32_t reached = IND_START_POSITION;
    for (const uint8_t *point = first; point < last;) {
        point += size;
        if (position_of(point) <= reached || !near_right(point)
            || !heading_right(point)
            || !(in_range || point_in_range(track, point)))
            return point;
        reached = position_of(point);
    }
    return last_point_right(track, last) ? NULL : last;
}

/* The first of a track's points in which a field or the agreement is wrong,
 * NULL if there is none. A start plus an increment of 0 is in range. */
static const uint8_t *wrong_point(const uint8_t *track, uint32_t size,
                                  const uint8_t *first, const uint8_t *last)
{
    if (!heading_right(first) || !near_right(first)
        || !first_point_right(first, size))
        return first;
    return all_in_range(track) ? wrong_after(track, size, first, last, 1)
                               : wrong_after(track, size, first, last, 0);
}

/* The first track number that does not rise, or the first point in which a
 * field or the agreement is wrong. A place of a file is below 65,535. */
static uint32_t wrong_place(const uint8_t *file, uint32_t size)
{
    uint32_t points = ind_track_place(ind_tracks(file));
    uint32_t before = 0;
    for (uint32_t track = IND_TRACKS_PLACE; track < points;
         track += IND_TRACK_SIZE) {
        const uint8_t *point;
        if (file[track + IND_TRACK_NUMBER] <= before)
            return track + IND_TRACK_NUMBER;
        before = file[track + IND_TRACK_NUMBER];
        point = wrong_point(file + track, size,
                            file + ind_first_point(file, track),
                            file + ind_last_point(file, track));
        if (point != NULL)
            return (uint32_t)(point - file);
    }
    return IND_NO_FAULT;
}

/* Fields of the header, of all entries and of all points, then agreement. One
 * pass over the points serves both. Where it stops, agreement is at fault
 * there, unless the field of some point is. */
static ind_answer contents_answer(const uint8_t *file, uint32_t size,
                                  uint32_t end)
{
    uint32_t wrong, fault = entry_field_fault(file);
    if (fault != IND_NO_FAULT)
        return ind_says(IND_FIELD, fault);
    wrong = wrong_place(file, size);
    if (wrong == IND_NO_FAULT)
        return ind_says(IND_ACCEPTED, 0);
    fault = points_field_fault(file, size, end);
    return fault != IND_NO_FAULT ? ind_says(IND_FIELD, fault)
                                 : ind_says(IND_AGREEMENT, wrong);
}

/* The verdict of a reader that knows the versions up to the newest. */
static ind_answer verdict(const uint8_t *file, size_t length, uint32_t newest)
{
    uint32_t size, end;
    ind_answer answer = ind_opening(file, length, IND_X1_LEAST_LENGTH,
                                    IND_X1_TYPE, newest);
    if (answer.number != IND_ACCEPTED)
        return answer;
    if (ind_has_heights(file) && length < IND_X1_LEAST_LENGTH_2)
        return ind_says(IND_LENGTH, 0);
    size = ind_point_size(file);
    end = ind_end(length);
    answer = ind_unless(layout_fault(file, size, end), IND_LAYOUT);
    if (answer.number == IND_ACCEPTED)
        answer = contents_answer(file, size, end);
    return answer;
}

ind_answer ind_x1(const uint8_t *file, size_t length)
{
    return verdict(file, length, IND_VERSION_2);
}

ind_answer ind_x1_version_1(const uint8_t *file, size_t length)
{
    return verdict(file, length, IND_VERSION_1);
}
