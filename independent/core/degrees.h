/* 02, ticket 14: a point or a position's coordinate in degrees, as the plan
 * room's drawing program takes them. */
#ifndef IND_DEGREES_H
#define IND_DEGREES_H

#include <stddef.h>

#include "answer.h"

enum {
    /* So many milliarcseconds are a degree. */
    IND_DEGREE = 3600000
};

/* A place in milliarcseconds, which remain the record, and beside them in
 * degrees, two binary64 numbers. */
typedef struct {
    ind_answer answer;
    int32_t latitude;
    int32_t longitude;
    double latitude_degrees;
    double longitude_degrees;
} ind_degrees;

/* The coordinate by track number and position. */
ind_degrees ind_degrees_at(const uint8_t *file, size_t length,
                           uint32_t number, uint32_t position);

/* The point by track index and index in that track: the track's start plus
 * the point's increments. */
ind_degrees ind_point_degrees_at(const uint8_t *file, size_t length,
                                 uint32_t track, uint32_t point);

/* The degrees of whole milliarcseconds: one division, to the nearest binary64,
 * of two to the even one. */
double ind_degrees_of(int32_t milliarcseconds);

/* The 64 bits of a binary64: sign, exponent and fraction from the highest
 * on. */
static inline uint64_t ind_bits_of(double number)
{
    union {
        double number;
        uint64_t bits;
    } seen = { number };
    return seen.bits;
}

#endif
