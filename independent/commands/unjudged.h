/* The core's two listers without the verdict, so that it can be seen what they
 * list of an X.2 that would be refused for its links. */
#ifndef UNJUDGED_H
#define UNJUDGED_H

#include "core/choices.h"

/* As ind_routes_from and ind_routes_flat, of a file whose layout is right and
 * whose links name objects; of all else nothing is judged. */
ind_routes unjudged_routes_from(const uint8_t *file, size_t length,
                                uint32_t start, uint32_t limit,
                                uint32_t budget, uint16_t *words, size_t room,
                                ind_walks *walks);
ind_routes unjudged_routes_flat(const uint8_t *file, size_t length,
                                uint32_t start, uint32_t limit,
                                uint32_t budget, uint16_t *words, size_t room);

#endif
