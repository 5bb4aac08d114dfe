/* The program's own pseudo-random numbers: a seed fixes all that follow. */
#ifndef RANDOM_H
#define RANDOM_H

#include <stdint.h>

typedef struct {
    uint64_t state;
} source;

source source_from(uint64_t seed);

/* The next 64 bits. */
uint64_t draw_bits(source *from);

/* A number from 0 to below - 1; 0 where below is 0. */
uint32_t draw(source *from, uint32_t below);

/* A number from low to high, both included. */
int64_t draw_between(source *from, int64_t low, int64_t high);

/* True once in so many times. */
int once_in(source *from, uint32_t times);

/* One of so many values. */
#define ONE_OF(from, values)                                                 \
    ((values)[draw((from), sizeof(values) / sizeof *(values))])

#endif
