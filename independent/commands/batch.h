/* A case of the batch: 1 byte question, four numbers of 4 bytes, two lengths
 * of 4 bytes, then two byte strings: the first and the second file. Of a case
 * of ahead the second is the X.2 followed by the lies, and one of the numbers
 * says how many these are. Of a case of load the first is a sequence of calls,
 * and the second is passed over. */
#ifndef BATCH_H
#define BATCH_H

#include <stdio.h>

#include "generator/asked.h"

typedef enum {
    READ_WHOLE,
    READ_NOTHING_MORE,
    READ_CUT_OFF,
    READ_TOO_MANY_LIES,
    READ_LARGE_ROOM,
    READ_BAD_CALLS,
    READ_UNKNOWN_QUESTION
} reading;

/* Reads the next case. The bytes of an over-long file, and of a list of lies
 * that is longer than a case has room for, are passed over; the length
 * stays. Calls are all kept, however many. */
reading read_case(FILE *input, asked *ask);

void write_case(FILE *output, const asked *ask);

#endif
