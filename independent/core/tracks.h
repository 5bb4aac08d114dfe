/* 01, the questions about an X.1: track, point and coordinate. */
#ifndef IND_TRACKS_H
#define IND_TRACKS_H

#include <stddef.h>

#include "answer.h"

typedef struct {
    ind_answer answer;
    uint32_t number;
    uint32_t property;
    uint32_t start_position;
    int32_t start_latitude;
    int32_t start_longitude;
    uint32_t end_position;
    int32_t end_latitude;
    int32_t end_longitude;
    uint32_t first_offset;
    uint32_t last_offset;
    uint32_t points;
} ind_track;

/* Track by index: all fields of its entry, and how many points it has. */
ind_track ind_track_at(const uint8_t *file, size_t length, uint32_t index);

/* A point. Of a version 1 file it has no height, and the height is 0. */
typedef struct {
    ind_answer answer;
    uint32_t position;
    int32_t latitude_increment;
    int32_t longitude_increment;
    int32_t heading;
    uint32_t near;
    uint32_t has_height;
    int32_t height;
} ind_point;

/* Point by track index and index in that track. */
ind_point ind_point_at(const uint8_t *file, size_t length, uint32_t track,
                       uint32_t point);

typedef struct {
    ind_answer answer;
    int32_t latitude;
    int32_t longitude;
} ind_coordinate;

/* Coordinate by track number and position. */
ind_coordinate ind_coordinate_at(const uint8_t *file, size_t length,
                                 uint32_t number, uint32_t position);

/* The whole number nearest the exact fraction on the way from (0, 0) to
 * (width, rise) at a step of 0 to width, a half going up; width above 0. */
int64_t ind_between(int64_t rise, int64_t step, int64_t width);

#endif
