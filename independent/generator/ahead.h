/* What an accepted pair is asked about what lies ahead (02, ticket 9). */
#ifndef AHEAD_H
#define AHEAD_H

#include "asked.h"
#include "random.h"

/* In one yard of three its turnouts have few numbers, so that several of them
 * share one lie. */
void share_numbers(source *from, stored *file);

/* The object last passed, its link, lies and room, for a right pair: mostly
 * such as are answered. The object that starts at first, where that is not 0,
 * is passed more often than others. */
void some_way_ahead(source *from, uint32_t first, asked *ask);

#endif
