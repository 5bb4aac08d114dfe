/* The two station files as a C programmer reads them who proves nothing, to
 * compare speed with: the same rules decide, but the only answer is accepted,
 * 1, or refused, 0. No number, no place, and no order of faults. */
#ifndef PLAIN_H
#define PLAIN_H

#include <stddef.h>
#include <stdint.h>

int plain_x1(const uint8_t *file, size_t length);
int plain_x2(const uint8_t *file, size_t length);

/* The X.1 first. */
int plain_pair(const uint8_t *x1, size_t x1_length, const uint8_t *x2,
               size_t x2_length);

/* Latitude and longitude are set where the answer is 1. */
int plain_coordinate(const uint8_t *file, size_t length, uint32_t number,
                     uint32_t position, int32_t *latitude,
                     int32_t *longitude);

#endif
