/* 01, 'The pair': a station's two files. */
#ifndef IND_STATION_H
#define IND_STATION_H

#include <stddef.h>

#include "answer.h"

/* The verdict of a pair: X.1 first, X.2 second. */
ind_answer ind_pair(const uint8_t *x1, size_t x1_length, const uint8_t *x2,
                    size_t x2_length);

#endif
