/* Fixed listings, for the second lister of 02's ticket 12: yards whose walks
 * fork, meet themselves, end nowhere and go deep. */
#ifndef LISTINGS_H
#define LISTINGS_H

#include <stdio.h>

#include "generator/stored.h"

/* Some of their yards. */
void make_two(stored *file);
void make_loop(stored *file);
void make_dead_end(stored *file);
void make_crossover(stored *file);
void make_tree(stored *file);
void make_deep(stored *file);

/* Writes each as a case of question routes2. */
void write_listings(FILE *output);

/* Asserts what is due of each, by both listers. */
void fixed_listing_examples(void);

#endif
