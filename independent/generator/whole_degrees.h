/* 02, ticket 14: X.1s that put a position and a point at every whole degree,
 * and one milliarcsecond to either side of it. */
#ifndef WHOLE_DEGREES_H
#define WHOLE_DEGREES_H

#include "asked.h"

enum {
    LATITUDE_DEGREES = 90,
    LONGITUDE_DEGREES = 180,
    /* At each longitude: three sides, from two directions, by two
     * questions. */
    DEGREE_SIDES = 3,
    DEGREE_WAYS = 2,
    DEGREE_QUESTIONS = 2,
    DEGREE_CASES = (2 * LONGITUDE_DEGREES + 1) * DEGREE_SIDES * DEGREE_WAYS
        * DEGREE_QUESTIONS
};

/* What a case has to be answered with: the whole degrees, how far beside them
 * the place is, and the place itself in milliarcseconds. At the end of a range
 * the place is not beside but at the degree. */
typedef struct {
    int32_t latitude_degree;
    int32_t longitude_degree;
    int32_t side;
    int32_t latitude;
    int32_t longitude;
} whole_degree;

/* The case with this index, below DEGREE_CASES. */
void build_whole_degree(uint32_t index, asked *ask, whole_degree *put);

#endif
