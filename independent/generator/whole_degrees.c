/* Each longitude of a whole degree with a latitude of a whole degree: every
 * latitude has its turn. An X.1 has two tracks. The first passes the place at
 * a position between two points, the second has a point there; neither starts
 * there, and the number of the first is the index of the second. */
#include "whole_degrees.h"

#include "core/core.h"

enum {
    LATITUDES = 2 * LATITUDE_DEGREES + 1,
    /* From one longitude to the next so many latitudes are passed over; no
     * number divides both this and the number of latitudes. */
    LATITUDE_STEP = 7,
    /* Latitude and longitude. */
    AXES = 2,
    TRACKS = 2,
    POINTS = 3,
    FIRST_NUMBER = 1,
    /* Positions of the points, and the one that the place is at: halfway
     * between the last two. */
    MIDDLE_POSITION = 100,
    PLACE_POSITION = 200,
    LAST_POSITION = 300,
    /* The point of the second track that the place is at. */
    PLACE_POINT = 1,
    /* How far the first track starts from the place. */
    FIRST_WAY = 1234567
};

static const int32_t limits[AXES] = { IND_LATITUDE_LIMIT,
                                      IND_LONGITUDE_LIMIT };

/* How far the last two points of the first track are from the place. */
static const int32_t aside[AXES] = { 1801, -2503 };

/* A track: its start, and the increments of its points. */
typedef struct {
    int32_t start[AXES];
    int32_t increments[POINTS][AXES];
} degree_track;

static int in_range(int32_t value, int axis)
{
    return value >= -limits[axis] && value <= limits[axis];
}

/* The increment that leads to a place: the wanted one, or the other where its
 * start would be out of range. */
static int32_t increment_to(int32_t place, int axis, int32_t wanted,
                            int32_t other)
{
    return in_range(place - wanted, axis) ? wanted : other;
}

/* The track that passes the place, at the end of a range along it. */
static degree_track passing(const int32_t place[AXES], int falling)
{
    degree_track made = { { 0 }, { { 0 } } };
    int32_t way = falling ? -FIRST_WAY : FIRST_WAY;
    for (int axis = 0; axis < AXES; axis++) {
        int32_t increment = increment_to(place[axis], axis, way, -way);
        int32_t off = in_range(place[axis] + aside[axis], axis)
                && in_range(place[axis] - aside[axis], axis)
            ? aside[axis]
            : 0;
        made.start[axis] = place[axis] - increment;
        made.increments[1][axis] = increment + off;
        made.increments[2][axis] = increment - off;
    }
    return made;
}

/* The track that has a point there, by the largest or the least increment, and
 * ends halfway back. */
static degree_track touching(const int32_t place[AXES], int falling)
{
    degree_track made = { { 0 }, { { 0 } } };
    int32_t wanted = falling ? IND_INCREMENT_LEAST : IND_INCREMENT_LARGEST;
    int32_t other = falling ? IND_INCREMENT_LARGEST : IND_INCREMENT_LEAST;
    for (int axis = 0; axis < AXES; axis++) {
        int32_t increment = increment_to(place[axis], axis, wanted, other);
        made.start[axis] = place[axis] - increment;
        made.increments[PLACE_POINT][axis] = increment;
        made.increments[POINTS - 1][axis] = increment / 2;
    }
    return made;
}

/* All points, from this place of the file on. */
static void put_points(const degree_track *made, uint32_t size,
                       uint8_t *first)
{
    static const uint32_t positions[POINTS] = { 0, MIDDLE_POSITION,
                                                LAST_POSITION };
    for (uint32_t i = 0; i < POINTS; i++) {
        uint8_t *point = first + size * i;
        for (uint32_t j = 0; j < size; j++)
            point[j] = 0;
        put_four(point, IND_POINT_POSITION, positions[i]);
        put_three(point, IND_POINT_LATITUDE,
                  (uint32_t)made->increments[i][0]);
        put_three(point, IND_POINT_LONGITUDE,
                  (uint32_t)made->increments[i][1]);
    }
}

static void put_track(const degree_track *made, uint32_t index, stored *file)
{
    uint8_t *entry = file->bytes + ind_track_place(index);
    uint32_t size = ind_point_size(file->bytes);
    uint32_t first = ind_track_place(TRACKS) + size * POINTS * index;
    const int32_t *end = made->increments[POINTS - 1];
    entry[IND_TRACK_NUMBER] = (uint8_t)(FIRST_NUMBER + index);
    entry[IND_TRACK_PROPERTY] = IND_LEAST_PROPERTY;
    put_four(entry, IND_TRACK_START_POSITION, IND_START_POSITION);
    put_four(entry, IND_TRACK_START_LATITUDE, (uint32_t)made->start[0]);
    put_four(entry, IND_TRACK_START_LONGITUDE, (uint32_t)made->start[1]);
    put_four(entry, IND_TRACK_END_POSITION, LAST_POSITION);
    put_four(entry, IND_TRACK_END_LATITUDE,
             (uint32_t)(made->start[0] + end[0]));
    put_four(entry, IND_TRACK_END_LONGITUDE,
             (uint32_t)(made->start[1] + end[1]));
    put_two(entry, IND_TRACK_FIRST_POINT, first);
    put_two(entry, IND_TRACK_LAST_POINT, first + size * (POINTS - 1));
    put_points(made, size, file->bytes + first);
}

/* The X.1 of both tracks; the falling ones have heights. */
static void make_file(const int32_t place[AXES], int falling, stored *file)
{
    degree_track first = passing(place, falling);
    degree_track second = touching(place, falling);
    put_opening(file->bytes, IND_X1_TYPE, 1, 1);
    if (falling)
        put_two(file->bytes, IND_STRUCTURE_VERSION_PLACE, IND_VERSION_2);
    file->bytes[IND_TRACK_COUNT_PLACE] = TRACKS;
    put_track(&first, 0, file);
    put_track(&second, 1, file);
    file->length = ind_track_place(TRACKS)
        + ind_point_size(file->bytes) * POINTS * TRACKS + IND_CHECKSUM_SIZE;
    seal(file);
}

/* Where a whole degree and a side put the place. */
static int32_t beside(int32_t degree, int32_t side, int axis)
{
    int32_t whole = IND_DEGREE * degree;
    return in_range(whole + side, axis) ? whole + side : whole;
}

void build_whole_degree(uint32_t index, asked *ask, whole_degree *put)
{
    uint32_t question = index % DEGREE_QUESTIONS;
    uint32_t way = index / DEGREE_QUESTIONS % DEGREE_WAYS;
    uint32_t side = index / DEGREE_QUESTIONS / DEGREE_WAYS % DEGREE_SIDES;
    uint32_t turn = index / DEGREE_QUESTIONS / DEGREE_WAYS / DEGREE_SIDES;
    int32_t place[AXES];
    put->longitude_degree = (int32_t)turn - LONGITUDE_DEGREES;
    put->latitude_degree =
        LATITUDE_DEGREES - (int32_t)(LATITUDE_STEP * turn % LATITUDES);
    put->side = (int32_t)side - 1;
    place[0] = put->latitude = beside(put->latitude_degree, put->side, 0);
    place[1] = put->longitude = beside(put->longitude_degree, put->side, 1);
    make_file(place, way == 1, &ask->files[0]);
    ask->files[1].length = 0;
    ask->question = question == 0 ? ASK_DEGREES : ASK_POINT_DEGREES;
    ask->numbers[0] = question == 0 ? FIRST_NUMBER : TRACKS - 1;
    ask->numbers[1] = question == 0 ? PLACE_POSITION : PLACE_POINT;
    ask->numbers[2] = ask->numbers[3] = 0;
}
