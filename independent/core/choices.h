/* 02's ticket 12: the routes of 01 by a second way. */
#ifndef IND_CHOICES_H
#define IND_CHOICES_H

#include "routes.h"

/* Routes from the boundary at an offset, as ind_routes_from lists them. No
 * room is lent for the partial walks. */
ind_routes ind_routes_flat(const uint8_t *file, size_t length, uint32_t start,
                           uint32_t limit, uint32_t budget, uint16_t *words,
                           size_t room);

#endif
