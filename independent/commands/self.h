/* What the parts of the program's own check have in common. */
#ifndef SELF_H
#define SELF_H

#include <stdio.h>

#include "generator/asked.h"

/* Yard Y: where its records start. */
enum {
    Y_START = 44,
    Y_FIRST_END = 56,
    Y_SECOND_END = 68,
    Y_TURNOUT = 80
};

/* A line from a start boundary to an end boundary over a group of balises:
 * numbers 1, 3 and 4 of five. Where its records start. */
enum {
    G_START = 41,
    G_END = 53,
    G_ONE = 65,
    G_THREE = 81,
    G_FOUR = 97
};

/* What stands in lent words before a listing. */
enum {
    UNTOUCHED = 0xA55A
};

/* Counts a sentence that holds, and prints one that does not. */
void ensure(int holds, const char *sentence);

/* Yard Y with this reverse link. */
void make_y(stored *file, uint32_t reverse);

/* The line over a group: others link to number 1 alone, and all of the group
 * have its links. */
void make_g(stored *file);

/* An X.1 of station 1 with one track, number 1, from (0, 0) to a position and a
 * latitude, all else least. */
void make_one_track(stored *file, uint32_t position, int32_t latitude);

/* Whether this text and nothing else was printed; closes what was kept. */
int printed(FILE *kept, const char *due);

/* Whether this text and nothing else is printed as the answer to a case. */
int prints(const posed *ask, const char *due);

/* Plans, beside yard Y. */
void plan_examples(void);

/* Routes read backwards: what the check passes, and what it notices. */
void backwards_examples(void);

/* Degrees: the division, every whole degree, refusals, and what the cases of
 * whole degrees notice. */
void degrees_examples(void);

/* What lies ahead: each stop, the order of judging, refusals, and the form of
 * its cases. */
void ahead_examples(void);

/* A file in pieces: each refusal and their order, what is left, two versions,
 * and the form of its cases. */
void load_examples(void);

/* The first depot beside its plan, from the folder of the examples. */
void depot_examples(const char *folder);

#endif
