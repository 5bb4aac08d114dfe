/* Yards to be asked for routes at every boundary by one limit: most of them
 * right, and most listings with as much as they need, so that something is
 * said of the routes between two boundaries. Some have one link that is not
 * returned, and some are damaged. */
#include "both_ways.h"

#include "cases.h"
#include "core/core.h"
#include "make.h"

/* ---- yards */

/* Every other yard has several boundaries with routes between them. */
static yard_shape some_shape(source *from)
{
    switch (draw(from, 4)) {
    case 0: return YARD_PARALLEL;
    case 1: return YARD_TANGLE;
    default: return (yard_shape)draw(from, YARD_SHAPES);
    }
}

/* One yard of lines alone is as long to ask as hundreds of others where it has
 * as many as there can be: such are rare. */
static size_wanted some_yard_size(source *from, yard_shape shape)
{
    return once_in(from, shape == YARD_LINES ? 40 : 3) ? SIZE_MIDDLE
                                                       : SIZE_SMALL;
}

/* How many links an object has; a balise of place above 1 has none of its
 * own. */
static uint32_t ports_of(const object *of)
{
    if (of->first != NO_OBJECT || of->kind == IND_SIDING)
        return 0;
    return of->kind == IND_TURNOUT ? PORTS : ind_is_boundary(of->kind) ? 1 : 2;
}

/* Which link of an object names another; as many as it has where none does. */
static uint32_t port_to(const object *of, uint32_t other)
{
    uint32_t port = 0;
    while (port < ports_of(of) && of->links[port] != other)
        port++;
    return port;
}

/* One link leads elsewhere, to an object that does not name this one, and what
 * it named before has no link in its place. Where that is no boundary, a file
 * is refused for this one link alone, because it is not returned. */
static void lead_astray(source *from, yard *made)
{
    uint32_t at = 1 + draw(from, made->count);
    uint32_t other = 1 + draw(from, made->count);
    object *astray = &made->objects[at];
    uint32_t ports = ports_of(astray), port = draw(from, ports);
    object *before = &made->objects[astray->links[port]];
    if (ports == 0 || ports_of(&made->objects[other]) == 0 || at == other
        || port_to(astray, other) < ports)
        return;
    if (astray->links[port] != NO_OBJECT)
        before->links[port_to(before, at)] = NO_OBJECT;
    astray->links[port] = other;
}

/* An X.2, right but for a link that may lead astray; whether its ways may be
 * as long as a limit. */
static int some_yard(source *from, stored *file)
{
    static yard made;
    uint32_t station = some_station(from);
    yard_shape shape = some_shape(from);
    size_wanted size = some_yard_size(from, shape);
    if (once_in(from, 10))
        make_yard(from, SIZE_SMALL, station, &made);
    else
        make_route_yard(from, shape, size, station, &made);
    if (once_in(from, 16))
        lead_astray(from, &made);
    lay_out(&made, NULL, file);
    return shape == YARD_LONG_LINE || shape == YARD_LONG_WAYS;
}

static void take_boundaries(const ind_layout *layout, both_ways *made)
{
    made->count = layout->starts + layout->ends;
    for (uint32_t i = 0; i < made->count; i++)
        made->boundaries[i].start = layout->header + IND_BOUNDARY_SIZE * i;
}

/* Where the boundaries of a yard start. Now and then its file is damaged after
 * that; where it is still accepted, those that it has then are asked. */
static void settle_boundaries(source *from, stored *file, both_ways *made)
{
    ind_layout layout;
    ind_application_layout(file->bytes, file->length - IND_CHECKSUM_SIZE,
                           &layout);
    take_boundaries(&layout, made);
    if (!once_in(from, 16))
        return;
    spoil(from, 1, file);
    if (ind_application(file->bytes, file->length, &layout).number
        == IND_ACCEPTED)
        take_boundaries(&layout, made);
}

/* ---- what they are asked with */

/* The limit of all listings of a yard; where ways are as long as one, half of
 * the time at the edges. */
static uint32_t some_common_limit(source *from, int long_ways)
{
    static const uint32_t edges[] = { 63, 64, 65, 159, 160, 161, 511, 512 };
    if (long_ways && once_in(from, 2))
        return ONE_OF(from, edges);
    switch (draw(from, 8)) {
    case 0:
    case 1:
    case 2: return 0;
    case 3:
    case 4: return 2 + draw(from, 11);
    case 5: return 13 + draw(from, 30);
    case 6: return ONE_OF(from, edges);
    default:
        return (uint32_t)draw_between(from, IND_LEAST_LIMIT,
                                      IND_LARGEST_LIMIT);
    }
}

/* Just what is needed, one more, or most often as much as there can be. */
static uint32_t some_enough(source *from, uint32_t needed, uint32_t most)
{
    const uint32_t values[] = { needed, needed + 1, most, most, most, most };
    uint32_t enough = ONE_OF(from, values);
    return enough > most ? most : enough;
}

/* Too little for the listing, in one way or in two; or a budget that is out of
 * range. */
static void stint(source *from, const ind_routes *needed, boundary_asked *of)
{
    static const uint32_t bad[] = { 0, 65536, 65537, 0xFFFFFFFF };
    uint32_t fewer = needed->walks > 1 ? needed->walks - 1 : 1;
    uint32_t less = needed->words > 0 ? needed->words - 1 : 0;
    switch (draw(from, 7)) {
    case 0: of->budget = ONE_OF(from, bad); break;
    case 1: of->budget = 1 + draw(from, 3); break;
    case 2: of->room = draw(from, 4); break;
    case 3: of->budget = fewer; of->room = less; break;
    case 4: of->budget = fewer; break;
    default: of->room = less; break;
    }
}

/* What a boundary is asked with, at and beside what its listing needs; now and
 * then, where that may be, with too little. */
static void draw_boundary(source *from, const stored *file, uint32_t limit,
                          int may_stint, boundary_asked *of)
{
    static ind_walks walks;
    static uint16_t words[ROOM_LARGEST];
    ind_routes needed = ind_routes_from(file->bytes, file->length, of->start,
                                        limit, IND_LARGEST_BUDGET, words,
                                        ROOM_LARGEST, &walks);
    of->question = once_in(from, 2) ? ASK_ROUTES : ASK_ROUTES2;
    of->budget = IND_LARGEST_BUDGET;
    of->room = some_enough(from, needed.words, ROOM_LARGEST);
    if (needed.answer.number == IND_ACCEPTED)
        of->budget = some_enough(from, needed.walks, IND_LARGEST_BUDGET);
    if (may_stint && once_in(from, 4))
        stint(from, &needed, of);
}

void build_both_ways(uint64_t seed, uint64_t index, asked *ask,
                     both_ways *made)
{
    source from = source_of(seed, index);
    stored *file = &ask->files[0];
    int long_ways = some_yard(&from, file);
    int may_stint = once_in(&from, 2);
    made->limit = some_common_limit(&from, long_ways);
    settle_boundaries(&from, file, made);
    for (uint32_t i = 0; i < made->count; i++)
        draw_boundary(&from, file, made->limit, may_stint,
                      &made->boundaries[i]);
    ask->files[1].length = 0;
}

void turn_to(const both_ways *made, uint32_t boundary, asked *ask)
{
    const boundary_asked *of = &made->boundaries[boundary];
    ask->question = of->question;
    ask->numbers[0] = of->start;
    ask->numbers[1] = made->limit;
    ask->numbers[2] = of->budget;
    ask->numbers[3] = of->room;
}
