/* The generator of plans: from a seed to an X.2 and a plan for it. */
#ifndef PLANS_H
#define PLANS_H

#include "stored.h"

enum {
    /* A little over the largest plan, so that over-long ones can be made. */
    PLAN_TEXT_ROOM = 1048576 + 2000
};

typedef struct {
    uint32_t length;
    uint8_t bytes[PLAN_TEXT_ROOM];
} plan_text;

/* An X.2, a plan, and what the listings are to be asked with: the first so
 * many of limit, budget and room as words; by the second lister where flat is
 * not 0. */
typedef struct {
    stored file;
    plan_text plan;
    uint32_t limit;
    uint32_t budget;
    uint32_t room;
    uint32_t words;
    int flat;
} plan_case;

/* The case of a seed. The plan has the yard's own routes, all of them or with
 * slips, and lines that are wrong in every way. */
void build_plan_case(uint64_t seed, plan_case *made);

#endif
