/* A run of the generator, as a command line asks for it. */
#ifndef GENERATION_H
#define GENERATION_H

#include "generator/cases.h"

/* Reads SEED COUNT [KIND..]; COUNT may be FIRST..END, a part of the cases.
 * Where no question is named all are wanted but routes2, degrees and
 * point-degrees, which have the cases of others, and load and ahead. Where the
 * words are wrong it says so on standard error and returns 0. */
int read_generation(int count, char **words, generation *run);

#endif
