/* A number on a command line. */
#ifndef NUMBER_H
#define NUMBER_H

#include <stdint.h>

/* Reads a number: decimal digits alone, below 2^64. 0 where it is none. */
int read_number(const char *word, uint64_t *number);

#endif
