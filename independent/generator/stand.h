/* Where a record stands: on which tracks, and at which position of each. */
#ifndef STAND_H
#define STAND_H

#include "core/tables.h"

/* The place of a track byte and that of the position that goes with it; 0
 * where none does. */
typedef struct {
    uint32_t track;
    uint32_t position;
} stand;

enum {
    LEGS = 3
};

/* A turnout stands on three tracks, those of its legs in field order; of all
 * other records the leg does not matter. */
stand stand_of(ind_object record, uint32_t leg);

#endif
