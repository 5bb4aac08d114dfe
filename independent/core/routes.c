/* 01, 'Routes'. All partial walks are made depth first, a turnout's normal leg
 * before its reverse leg: the one under way stands in a list of its objects,
 * and each walk leaves its last object and its number of objects behind. An
 * object keeps where in the list it was put; it stands there as long as the
 * list reaches so far and has it there, so that going back is only to shorten
 * the list. Nothing is listed until all walks are there and the words are
 * counted. What they left behind, in the same order, then makes them again,
 * and those that end at a boundary are written down.
 *
 * An object is the place where it starts, below 65,535, and a walk has at most
 * 512 of them: both fit in 16 bits. */
#include "routes.h"

#include "application.h"

enum {
    COUNT_WORD = 1,
    /* A record has at least 12 bytes: of so many places in a row at most one
     * is the start of an object. */
    PLACES_PER_OBJECT = 8,
    OBJECTS_MOST = (IND_LARGEST_FILE + 1) / PLACES_PER_OBJECT
};

/* An object that is still to be walked to, and how many stand before it. */
typedef struct {
    uint16_t object;
    uint16_t before;
} branch;

/* A listing under way. */
typedef struct {
    const uint8_t *file;
    const ind_layout *layout;
    uint32_t limit;
    uint32_t budget;
    ind_walks *walks;
    /* What has been found: partial walks, routes and the words they need. */
    uint32_t count;
    uint32_t routes;
    uint32_t words;
    /* The walk under way, and for each object where in it the object was
     * last put. It may have been taken out since. */
    uint16_t walk[IND_LARGEST_LIMIT];
    uint16_t put[OBJECTS_MOST];
    /* The reverse legs that wait, at most one of each turnout in the walk. */
    uint32_t waiting;
    branch branches[IND_LARGEST_LIMIT];
} listing;

/* A link, if it leads on from a walk of so many objects: it is not 0 and
 * names no object that stands in it. Otherwise 0. */
static inline uint32_t leading_on(const listing *list, uint32_t objects,
                                  uint32_t link)
{
    uint32_t put = list->put[link / PLACES_PER_OBJECT];
    return put < objects && list->walk[put] == link ? 0 : link;
}

/* A turnout entered at the front is left by normal or reverse; entered at
 * either leg it is left by the front. Where both legs lead on, the reverse
 * leg waits. */
static inline uint32_t through_turnout(listing *list, uint32_t objects,
                                       const uint8_t *turnout,
                                       uint32_t came_from)
{
    uint32_t front = ind_two(turnout, IND_TURNOUT_FRONT);
    uint32_t normal, reverse;
    if (front != came_from)
        return leading_on(list, objects, front);
    normal =
        leading_on(list, objects, ind_two(turnout, IND_TURNOUT_NORMAL));
    reverse =
        leading_on(list, objects, ind_two(turnout, IND_TURNOUT_REVERSE));
    if (normal == 0)
        return reverse;
    if (reverse != 0) {
        branch *later = &list->branches[list->waiting++];
        later->object = (uint16_t)reverse;
        later->before = (uint16_t)objects;
    }
    return normal;
}

/* The object after the last one of a walk of so many objects, which was
 * entered by its link that names the object before; 0 if there is none. The
 * first is a boundary, and a boundary reached has nothing after it. */
static inline uint32_t next_object(listing *list, uint32_t objects,
                                   uint32_t here, uint32_t came_from)
{
    const uint8_t *record = list->file + here;
    uint32_t link;
    if (objects == list->limit)
        return 0;
    if (ind_boundary_at(list->layout, here))
        return objects > 1 ? 0 : ind_two(record, IND_BOUNDARY_LINK);
    if (ind_turnout_at(list->layout, here))
        return through_turnout(list, objects, record, came_from);
    link = ind_two(record, IND_BALISE_PREVIOUS);
    if (link == came_from)
        link = ind_two(record, IND_BALISE_NEXT);
    return leading_on(list, objects, link);
}

/* A walk of so many objects is one object longer. */
static inline void lengthen(listing *list, uint32_t objects, uint32_t object)
{
    list->walk[objects] = (uint16_t)object;
    list->put[object / PLACES_PER_OBJECT] = (uint16_t)objects;
    if (objects > 0 && ind_boundary_at(list->layout, object)) {
        list->routes++;
        list->words += COUNT_WORD + objects + 1;
    }
}

static void begin(listing *list)
{
    list->count = 0;
    list->routes = 0;
    list->words = 0;
    list->waiting = 0;
    for (uint32_t i = 0; i <= list->layout->end / PLACES_PER_OBJECT; i++)
        list->put[i] = 0;
}

/* All partial walks; 0 if they outnumber the budget. */
static int all_walks(listing *list, uint32_t start)
{
    uint32_t object = start, came_from = 0, objects = 0, count = 0;
    ind_walks *walks = list->walks;
    begin(list);
    while (count < list->budget) {
        uint32_t next;
        lengthen(list, objects, object);
        objects++;
        walks->last[count] = (uint16_t)object;
        walks->objects[count] = (uint16_t)objects;
        list->count = ++count;
        next = next_object(list, objects, object, came_from);
        came_from = object;
        object = next;
        if (next == 0) {
            const branch *later;
            if (list->waiting == 0)
                return 1;
            later = &list->branches[--list->waiting];
            object = later->object;
            objects = later->before;
            came_from = list->walk[objects - 1];
        }
    }
    return 0;
}

/* One route: its object count and then the offsets. */
static uint16_t *write_route(uint16_t *restrict words,
                             const uint16_t *restrict walk, uint32_t objects)
{
    *words++ = (uint16_t)objects;
    for (uint32_t i = 0; i < objects; i++)
        *words++ = walk[i];
    return words;
}

/* Each partial walk once more, in the order in which they were found. */
static void write_routes(listing *list, uint16_t *words)
{
    for (uint32_t i = 0; i < list->count; i++) {
        uint32_t last = list->walks->last[i];
        uint32_t objects = list->walks->objects[i];
        list->walk[objects - 1] = (uint16_t)last;
        if (objects > 1 && ind_boundary_at(list->layout, last))
            words = write_route(words, list->walk, objects);
    }
}

/* Limit 2 to 512, budget 1 to 65,535, start a boundary. */
static int in_range(const ind_layout *layout, uint32_t start, uint32_t limit,
                    uint32_t budget)
{
    return limit >= IND_LEAST_LIMIT && limit <= IND_LARGEST_LIMIT
        && budget >= 1 && budget <= IND_LARGEST_BUDGET
        && ind_is_boundary(ind_kind_at(layout, start))
        && (start - layout->header) % IND_BOUNDARY_SIZE == 0;
}

ind_routes ind_routes_from(const uint8_t *file, size_t length, uint32_t start,
                           uint32_t limit, uint32_t budget, uint16_t *words,
                           size_t room, ind_walks *walks)
{
    ind_routes found = { { 0, 0, 0 }, 0, 0, 0 };
    ind_layout layout;
    listing list;
    found.answer = ind_application(file, length, &layout);
    if (found.answer.number != IND_ACCEPTED)
        return found;
    list.file = file;
    list.layout = &layout;
    list.limit = limit == 0 ? IND_DEFAULT_LIMIT : limit;
    list.budget = budget;
    list.walks = walks;
    if (!in_range(&layout, start, list.limit, budget)) {
        found.answer = ind_says(IND_OUT_OF_RANGE, 0);
        return found;
    }
    if (!all_walks(&list, start)) {
        found.answer = ind_says(IND_STEPS, 0);
        return found;
    }
    if (list.words > room) {
        found.answer = ind_says(IND_ROOM, 0);
        return found;
    }
    found.routes = list.routes;
    found.words = list.words;
    found.walks = list.count;
    write_routes(&list, words);
    return found;
}
