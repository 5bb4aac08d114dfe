/* The generator of yards that are worked both ways (02, ticket 13): from a seed
 * and an index to an X.2, and what each of its boundaries is asked with. */
#ifndef BOTH_WAYS_H
#define BOTH_WAYS_H

#include "asked.h"

enum {
    /* A header counts up to 255 boundaries of each kind. */
    BOUNDARIES_MOST = 2 * 255
};

/* What a boundary is asked with, and by which lister. */
typedef struct {
    uint32_t question;
    uint32_t start;
    uint32_t budget;
    uint32_t room;
} boundary_asked;

/* All boundaries of a yard in stored order, and the limit that they share. */
typedef struct {
    uint32_t limit;
    uint32_t count;
    boundary_asked boundaries[BOUNDARIES_MOST];
} both_ways;

/* The yard with this index; the same for the same seed and index. Its file
 * becomes the first of the case. */
void build_both_ways(uint64_t seed, uint64_t index, asked *ask,
                     both_ways *made);

/* The case asks one of the boundaries; its file stays. */
void turn_to(const both_ways *made, uint32_t boundary, asked *ask);

#endif
