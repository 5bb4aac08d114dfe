/* docs/PLAN.md: the plan of a yard's signal engineer, and how it differs from
 * a list of routes. */
#ifndef IND_PLAN_H
#define IND_PLAN_H

#include <stddef.h>

#include "bytes.h"
#include "routes.h"

enum {
    IND_LARGEST_PLAN = 1048576,
    IND_LEAST_PLANNED = 2,
    IND_LARGEST_PLANNED = IND_LARGEST_LIMIT,
    IND_OFFSETS = 65536,
    /* An offset has at least a digit and a blank or a line's end after it, but
     * for the last; a route has at least two, and is kept with its count. */
    IND_PLAN_ROUTES = IND_LARGEST_PLAN / 4 + 1,
    IND_PLAN_WORDS = IND_LARGEST_PLAN / 2 + 1 + IND_PLAN_ROUTES,
    /* A power of two, and at least twice as many as there are routes. */
    IND_PLAN_BUCKETS = IND_LARGEST_PLAN
};

/* What is wrong with a line; of several the first is said. */
typedef enum {
    IND_LINE_RIGHT = 0,
    IND_LINE_FROM,
    IND_LINE_WORD,
    IND_LINE_TOO_FEW,
    IND_LINE_TOO_MANY,
    IND_LINE_ELSEWHERE,
    IND_LINE_AGAIN,
    IND_LINE_FAULTS
} ind_line_fault;

/* Routes are numbered from 1 in the plan's order; 0 is none. Of each, where
 * its words stand, the next one from its start, and whether it was listed in
 * the last comparison of its start. */
typedef struct {
    uint32_t place;
    uint32_t next;
    uint32_t listed;
} ind_planned;

/* A start: whether the plan names it, and its first and last route. */
typedef struct {
    uint32_t named;
    uint32_t first;
    uint32_t last;
} ind_planned_start;

/* A plan, in room that the caller lends. */
typedef struct {
    /* The text, and how many of its bytes have been read. */
    const uint8_t *text;
    uint32_t length;
    uint32_t read;
    /* The line that was read last: its number, and what is wrong with it. */
    uint32_t line;
    ind_line_fault fault;
    /* Whether routes are from the offset of a 'from' line, and which. */
    int under_from;
    uint32_t from;
    /* How many starts are named, and which. */
    uint32_t starts;
    ind_planned_start start[IND_OFFSETS];
    /* How many routes there are. Their words are those of a list: the count
     * of a route, then its offsets. */
    uint32_t routes;
    uint32_t used;
    ind_planned route[IND_PLAN_ROUTES + 1];
    uint16_t words[IND_PLAN_WORDS];
    /* Where a route is looked up by its words. */
    uint32_t buckets;
    uint32_t bucket[IND_PLAN_BUCKETS];
} ind_plan;

/* How many routes from a start are listed and planned, planned alone, and
 * listed alone. */
typedef struct {
    uint32_t both;
    uint32_t missing;
    uint32_t extra;
} ind_difference;

/* A plan with nothing read of its text, which has at most 1048576 bytes. */
void ind_plan_begin(ind_plan *plan, const uint8_t *text, size_t length);

/* Reads the next line; 0 where there is none. */
int ind_plan_line(ind_plan *plan);

/* Whether a route, from its count word on, stands in the plan. */
int ind_is_planned(const ind_plan *plan, const uint16_t *route);

/* Compares the routes from a start with a list of so many, and says of each
 * planned one from it whether it is listed. */
ind_difference ind_plan_compare(ind_plan *plan, uint32_t start,
                                const uint16_t *list, uint32_t routes);

#endif
