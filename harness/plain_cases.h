/* Whether the plain reader accepts what the independent core accepts. */
#ifndef PLAIN_CASES_H
#define PLAIN_CASES_H

#include <stdint.h>

/* How many of the cases were accepted and refused by both, and differ. */
typedef struct {
    uint64_t accepted;
    uint64_t refused;
    uint64_t differ;
} plain_figures;

/* So many generated cases, right and damaged, of what the plain reader
 * reads: an X.1, an X.2, a pair, a coordinate. */
plain_figures plain_compared(uint64_t seed, uint64_t count);

#endif
