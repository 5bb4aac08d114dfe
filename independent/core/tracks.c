/* 01, the questions about X.1: track, point and 'Coordinate at a position'.
 * Each first gives its file's own fault. */
#include "tracks.h"

#include "geography.h"

ind_track ind_track_at(const uint8_t *file, size_t length, uint32_t index)
{
    ind_track track = { { 0, 0, 0 }, 0, 0, 0, 0, 0, 0, 0, 0, 0, 0, 0 };
    uint32_t place;
    track.answer = ind_x1(file, length);
    if (track.answer.number != IND_ACCEPTED)
        return track;
    if (index >= ind_tracks(file)) {
        track.answer = ind_says(IND_OUT_OF_RANGE, 0);
        return track;
    }
    place = ind_track_place(index);
    track.number = file[place + IND_TRACK_NUMBER];
    track.property = file[place + IND_TRACK_PROPERTY];
    track.start_position = ind_four(file, place + IND_TRACK_START_POSITION);
    track.start_latitude =
        ind_signed_four(file, place + IND_TRACK_START_LATITUDE);
    track.start_longitude =
        ind_signed_four(file, place + IND_TRACK_START_LONGITUDE);
    track.end_position = ind_four(file, place + IND_TRACK_END_POSITION);
    track.end_latitude = ind_signed_four(file, place + IND_TRACK_END_LATITUDE);
    track.end_longitude =
        ind_signed_four(file, place + IND_TRACK_END_LONGITUDE);
    track.first_offset = ind_first_point(file, place);
    track.last_offset = ind_last_point(file, place);
    track.points = ind_points(file, place);
    return track;
}

ind_point ind_point_at(const uint8_t *file, size_t length, uint32_t track,
                       uint32_t point)
{
    ind_point found = { { 0, 0, 0 }, 0, 0, 0, 0, 0, 0, 0 };
    uint32_t place;
    found.answer = ind_x1(file, length);
    if (found.answer.number != IND_ACCEPTED)
        return found;
    if (track >= ind_tracks(file)
        || point >= ind_points(file, ind_track_place(track))) {
        found.answer = ind_says(IND_OUT_OF_RANGE, 0);
        return found;
    }
    place = ind_point_place(file, ind_track_place(track), point);
    found.position = ind_four(file, place + IND_POINT_POSITION);
    found.latitude_increment =
        ind_signed_three(file, place + IND_POINT_LATITUDE);
    found.longitude_increment =
        ind_signed_three(file, place + IND_POINT_LONGITUDE);
    found.heading = ind_signed_two(file, place + IND_POINT_HEADING);
    found.near = file[place + IND_POINT_NEAR];
    if (ind_has_heights(file)) {
        found.has_height = 1;
        found.height = ind_signed_two(file, place + IND_POINT_HEIGHT);
    }
    return found;
}

/* The largest whole number not above the fraction; below is above 0. */
static int64_t floor_of(int64_t above, int64_t below)
{
    int64_t cut = above / below;
    return above % below < 0 ? cut - 1 : cut;
}

/* floor(x + 1/2) of x = rise * step / width, over one denominator. */
int64_t ind_between(int64_t rise, int64_t step, int64_t width)
{
    return floor_of(2 * rise * step + width, 2 * width);
}

/* The place of the track with this number, or IND_NO_FAULT if absent. */
static uint32_t track_numbered(const uint8_t *file, uint32_t number)
{
    for (uint32_t i = 0; i < ind_tracks(file); i++)
        if (file[ind_track_place(i) + IND_TRACK_NUMBER] == number)
            return ind_track_place(i);
    return IND_NO_FAULT;
}

/* The first point after the track's first that is not before the position;
 * it and the one before it are the neighbours. Positions rise, so half of the
 * points are left out at each turn. */
static uint32_t point_reached(const uint8_t *file, uint32_t track,
                              uint32_t position)
{
    uint32_t below = 0, reached = ind_points(file, track) - 1;
    while (reached - below > 1) {
        uint32_t middle = below + (reached - below) / 2;
        uint32_t point = ind_point_place(file, track, middle);
        if (ind_four(file, point + IND_POINT_POSITION) < position)
            below = middle;
        else
            reached = middle;
    }
    return ind_point_place(file, track, reached);
}

/* One coordinate, whose increments stand at a place in each point. It lies
 * between those of two points of a right file, and so within its range. */
static int32_t coordinate(const uint8_t *file, int32_t start, uint32_t point,
                          uint32_t increment, uint32_t position)
{
    uint32_t before = point - ind_point_size(file);
    int64_t low = ind_signed_three(file, before + increment);
    int64_t high = ind_signed_three(file, point + increment);
    int64_t from = ind_four(file, before + IND_POINT_POSITION);
    int64_t to = ind_four(file, point + IND_POINT_POSITION);
    return (int32_t)(start + low
                     + ind_between(high - low, position - from, to - from));
}

ind_coordinate ind_coordinate_at(const uint8_t *file, size_t length,
                                 uint32_t number, uint32_t position)
{
    ind_coordinate found = { { 0, 0, 0 }, 0, 0 };
    uint32_t track, point;
    found.answer = ind_x1(file, length);
    if (found.answer.number != IND_ACCEPTED)
        return found;
    track = track_numbered(file, number);
    if (track == IND_NO_FAULT) {
        found.answer = ind_says(IND_NO_TRACK, 0);
        return found;
    }
    if (position > ind_four(file, track + IND_TRACK_END_POSITION)) {
        found.answer = ind_says(IND_BEYOND_END, 0);
        return found;
    }
    point = point_reached(file, track, position);
    found.latitude = coordinate(
        file, ind_signed_four(file, track + IND_TRACK_START_LATITUDE), point,
        IND_POINT_LATITUDE, position);
    found.longitude = coordinate(
        file, ind_signed_four(file, track + IND_TRACK_START_LONGITUDE), point,
        IND_POINT_LONGITUDE, position);
    return found;
}
