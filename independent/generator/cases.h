/* The generator: from a seed and an index to a case. */
#ifndef CASES_H
#define CASES_H

#include "asked.h"
#include "random.h"

/* Which questions are to be asked, of which ASK_NOTHING is never one, and
 * whether all files are to be small. */
typedef struct {
    int asked_for[QUESTIONS];
    int small;
} wanted;

/* A run of the generator: the cases from one index up to another, of which
 * kinds. */
typedef struct {
    uint64_t seed;
    uint64_t first;
    uint64_t end;
    wanted kinds;
} generation;

/* The numbers that the case with this index is drawn from. */
source source_of(uint64_t seed, uint64_t index);

/* A station's number, often at the edge of its range. */
uint32_t some_station(source *from);

/* Damages a right file, an X.2 or an X.1, in one of many ways; the checksum is
 * mostly repaired, so that the checks after it are reached. */
void spoil(source *from, int application, stored *file);

/* The case with this index; the same for the same seed, index and kinds. */
void build_case(const generation *run, uint64_t index, asked *ask);

#endif
