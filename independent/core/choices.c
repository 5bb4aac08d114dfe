/* 02's ticket 12: the routes of 01 by a second way. The choices that are open,
 * each a link and how many objects stand before what it names, wait in an
 * array; the last one opened is tried first. A link is judged when it is
 * tried, and then alone. The walks are gone through twice: to count, and to
 * write. */
#include "choices.h"

#include "application.h"

typedef struct {
    uint16_t link;
    uint16_t before;
} choice;

/* A search under way: the walk, the open choices, of which there is at most
 * one more than objects in the walk, and what has been found. */
typedef struct {
    const uint8_t *file;
    const ind_layout *layout;
    uint32_t limit;
    uint32_t budget;
    uint16_t walk[IND_LARGEST_LIMIT];
    uint32_t open;
    choice choices[IND_LARGEST_LIMIT + 1];
    ind_routes found;
} search;

static void open_choice(search *of, uint32_t link, uint32_t before)
{
    of->choices[of->open++] = (choice){ (uint16_t)link, (uint16_t)before };
}

/* Link 0 ends the way, and no object stands twice. */
static int leads_on(const search *of, choice next)
{
    int stands = 0;
    for (uint32_t i = 0; i < next.before; i++)
        stands |= of->walk[i] == next.link;
    return next.link != 0 && !stands;
}

/* The ways out of a turnout, the one to be tried first opened last. */
static void open_turnout(search *of, const uint8_t *turnout, uint32_t objects)
{
    uint32_t front = ind_two(turnout, IND_TURNOUT_FRONT);
    if (front != of->walk[objects - 2]) {
        open_choice(of, front, objects);
        return;
    }
    open_choice(of, ind_two(turnout, IND_TURNOUT_REVERSE), objects);
    open_choice(of, ind_two(turnout, IND_TURNOUT_NORMAL), objects);
}

/* The ways out of the last object of a walk of so many. */
static void open_ways(search *of, uint32_t objects)
{
    uint32_t here = of->walk[objects - 1];
    const uint8_t *record = of->file + here;
    if (objects == of->limit)
        return;
    if (objects == 1) {
        open_choice(of, ind_two(record, IND_BOUNDARY_LINK), objects);
    } else if (ind_turnout_at(of->layout, here)) {
        open_turnout(of, record, objects);
    } else if (!ind_boundary_at(of->layout, here)) {
        uint32_t previous = ind_two(record, IND_BALISE_PREVIOUS);
        uint32_t next = ind_two(record, IND_BALISE_NEXT);
        int onward = previous == of->walk[objects - 2];
        open_choice(of, onward ? next : previous, objects);
    }
}

/* The walk of so many objects is a route: counted and, where words are lent,
 * written after those before it. */
static void take_route(search *of, uint32_t objects, uint16_t *words)
{
    if (words != NULL) {
        words += of->found.words;
        *words++ = (uint16_t)objects;
        for (uint32_t i = 0; i < objects; i++)
            words[i] = of->walk[i];
    }
    of->found.routes++;
    of->found.words += 1 + objects;
}

/* All partial walks; 0 if they outnumber the budget. */
static int go_through(search *of, uint32_t start, uint16_t *words)
{
    of->found = (ind_routes){ { 0, 0, 0 }, 0, 0, 0 };
    of->open = 0;
    open_choice(of, start, 0);
    while (of->open > 0) {
        choice next = of->choices[--of->open];
        uint32_t objects = next.before + 1u;
        if (!leads_on(of, next))
            continue;
        if (of->found.walks == of->budget)
            return 0;
        of->found.walks++;
        of->walk[next.before] = next.link;
        if (objects >= 2 && ind_boundary_at(of->layout, next.link))
            take_route(of, objects, words);
        open_ways(of, objects);
    }
    return 1;
}

/* Whether a boundary starts at an offset: one of those in the header. */
static int starts_boundary(const search *of, uint32_t offset)
{
    for (uint32_t i = 0; i < of->layout->starts + of->layout->ends; i++)
        if (of->layout->header + IND_BOUNDARY_SIZE * i == offset)
            return 1;
    return 0;
}

/* 13, 14 or 15; 0 where the list can be written. */
static uint32_t refusal(search *of, uint32_t start, size_t room)
{
    if (of->limit < IND_LEAST_LIMIT || of->limit > IND_LARGEST_LIMIT
        || of->budget == 0 || of->budget > IND_LARGEST_BUDGET
        || !starts_boundary(of, start))
        return IND_OUT_OF_RANGE;
    if (!go_through(of, start, NULL))
        return IND_STEPS;
    return of->found.words > room ? IND_ROOM : IND_ACCEPTED;
}

ind_routes ind_routes_flat(const uint8_t *file, size_t length, uint32_t start,
                           uint32_t limit, uint32_t budget, uint16_t *words,
                           size_t room)
{
    ind_routes refused = { { 0, 0, 0 }, 0, 0, 0 };
    ind_layout layout;
    search of;
    refused.answer = ind_application(file, length, &layout);
    if (refused.answer.number != IND_ACCEPTED)
        return refused;
    of.file = file;
    of.layout = &layout;
    of.limit = limit == 0 ? IND_DEFAULT_LIMIT : limit;
    of.budget = budget;
    refused.answer = ind_says(refusal(&of, start, room), 0);
    if (refused.answer.number != IND_ACCEPTED)
        return refused;
    go_through(&of, start, words);
    return of.found;
}
