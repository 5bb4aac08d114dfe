/* 01, 'X.1, track geography': sizes, places and ranges of tables 2 and 3, and
 * the verdict. In structure version 2 each point has a height at its end (02,
 * ticket 11). */
#ifndef IND_GEOGRAPHY_H
#define IND_GEOGRAPHY_H

#include "answer.h"
#include "bytes.h"
#include "opening.h"

enum {
    IND_X1_TYPE = 1,
    IND_X1_LEAST_LENGTH = 68,
    /* Of a version 2 file, judged after its version. */
    IND_X1_LEAST_LENGTH_2 = 72,
    IND_TRACK_COUNT_PLACE = 7,
    IND_TRACKS_PLACE = 8
};

/* Table 2: a track's entry. */
enum {
    IND_TRACK_NUMBER = 0,
    IND_TRACK_PROPERTY = 1,
    IND_TRACK_START_POSITION = 2,
    IND_TRACK_START_LATITUDE = 6,
    IND_TRACK_START_LONGITUDE = 10,
    IND_TRACK_END_POSITION = 14,
    IND_TRACK_END_LATITUDE = 18,
    IND_TRACK_END_LONGITUDE = 22,
    IND_TRACK_FIRST_POINT = 26,
    IND_TRACK_LAST_POINT = 28,
    IND_TRACK_SIZE = 30
};

/* Table 3: a point. One of version 1 ends where one of version 2 has its
 * height. */
enum {
    IND_POINT_POSITION = 0,
    IND_POINT_LATITUDE = 4,
    IND_POINT_LONGITUDE = 7,
    IND_POINT_HEADING = 10,
    IND_POINT_NEAR = 12,
    IND_POINT_SIZE_1 = 13,
    IND_POINT_HEIGHT = IND_POINT_SIZE_1,
    IND_POINT_SIZE_2 = 15
};

enum {
    IND_LEAST_POINTS = 2,
    IND_LEAST_PROPERTY = 1,
    IND_LARGEST_PROPERTY = 5,
    IND_START_POSITION = 0,
    IND_LATITUDE_LIMIT = 324000000,
    IND_LONGITUDE_LIMIT = 648000000,
    IND_INCREMENT_LARGEST = 8388607,
    IND_INCREMENT_LEAST = -8388608,
    IND_HEADING_LIMIT = 31416,
    IND_LARGEST_NEAR = 1
};

static inline int ind_has_heights(const uint8_t *file)
{
    return ind_version(file) == IND_VERSION_2;
}

/* How many bytes each point of a file has. */
static inline uint32_t ind_point_size(const uint8_t *file)
{
    return ind_has_heights(file) ? IND_POINT_SIZE_2 : IND_POINT_SIZE_1;
}

/* In a file whose layout is right: */
static inline uint32_t ind_tracks(const uint8_t *file)
{
    return file[IND_TRACK_COUNT_PLACE];
}

static inline uint32_t ind_track_place(uint32_t index)
{
    return IND_TRACKS_PLACE + IND_TRACK_SIZE * index;
}

static inline uint32_t ind_first_point(const uint8_t *file, uint32_t track)
{
    return ind_two(file, track + IND_TRACK_FIRST_POINT);
}

static inline uint32_t ind_last_point(const uint8_t *file, uint32_t track)
{
    return ind_two(file, track + IND_TRACK_LAST_POINT);
}

static inline uint32_t ind_points(const uint8_t *file, uint32_t track)
{
    return (ind_last_point(file, track) - ind_first_point(file, track))
               / ind_point_size(file) + 1;
}

/* The place of a track's point. */
static inline uint32_t ind_point_place(const uint8_t *file, uint32_t track,
                                       uint32_t index)
{
    return ind_first_point(file, track) + ind_point_size(file) * index;
}

/* The verdict of an X.1. */
ind_answer ind_x1(const uint8_t *file, size_t length);

/* The verdict of a reader that knows structure version 1 alone. */
ind_answer ind_x1_version_1(const uint8_t *file, size_t length);

#endif
