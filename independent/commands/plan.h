/* A yard beside its plan. */
#ifndef PLAN_H
#define PLAN_H

#include <stddef.h>
#include <stdint.h>
#include <stdio.h>

/* An X.2, the text of a plan, and what the listings are asked with: by the
 * second lister where flat is not 0. */
typedef struct {
    const uint8_t *file;
    size_t length;
    const uint8_t *plan;
    size_t plan_length;
    uint32_t limit;
    uint32_t budget;
    uint32_t room;
    int flat;
} planned_yard;

/* Reads the two files; says so on standard error and returns 0 where one
 * cannot be read. What was read stands until the next call. */
int read_planned(const char *file, const char *plan, planned_yard *of);

/* What yardplan prints of it to standard output, and what it says to standard
 * error. */
void print_plan(FILE *output, FILE *said, const planned_yard *of);

#endif
