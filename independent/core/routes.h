/* 01, 'Routes'. */
#ifndef IND_ROUTES_H
#define IND_ROUTES_H

#include <stddef.h>

#include "answer.h"

enum {
    IND_DEFAULT_LIMIT = 160,
    IND_LEAST_LIMIT = 2,
    IND_LARGEST_LIMIT = 512,
    IND_LARGEST_BUDGET = 65535
};

/* Room that the caller lends for the partial walks, in the order in which
 * they are found: the last object of each and how many it has. What stands in
 * it before and after a call has no meaning. */
typedef struct {
    uint16_t last[IND_LARGEST_BUDGET];
    uint16_t objects[IND_LARGEST_BUDGET];
} ind_walks;

typedef struct {
    ind_answer answer;
    uint32_t routes;
    uint32_t words;
    uint32_t walks;
} ind_routes;

/* Routes from the boundary at an offset. The list goes to the lent words, of
 * which there are as many as room says. */
ind_routes ind_routes_from(const uint8_t *file, size_t length, uint32_t start,
                           uint32_t limit, uint32_t budget, uint16_t *words,
                           size_t room, ind_walks *walks);

#endif
