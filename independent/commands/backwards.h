/* 02's ticket 13, checked of printed answers. */
#ifndef BACKWARDS_H
#define BACKWARDS_H

#include <stdio.h>

/* Reads cases of routes and what was printed for each, both to their end, and
 * nothing else. Cases that follow each other with the same file and the same
 * limit are of one yard. Of two listings of a yard that are not refused, each
 * route from the start of the one to that of the other has to stand in the
 * other once, reversed.
 *
 * Prints the first routes of which that is not so, and counts. RUN_WELL where
 * every route is read back, RUN_BAD where one is not. Where the cases or the
 * answers cannot be read, it says why, prints no counts and returns
 * RUN_UNJUDGED. */
int check_backwards(FILE *cases, FILE *answers, FILE *output, FILE *said);

#endif
