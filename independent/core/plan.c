/* docs/PLAN.md. Lines are read one after the other; each route that counts is
 * kept by its words, as a list has it, and found again by them, whether it is
 * planned twice or listed. */
#include "plan.h"

enum {
    LINE_FEED = 0x0A,
    CARRIAGE_RETURN = 0x0D,
    TAB = 0x09,
    BLANK = 0x20,
    COMMENT = '#',
    TEN = 10
};

/* No offset: above all of them. */
#define NO_OFFSET ((uint32_t)IND_OFFSETS)

/* A word: so many bytes of the text, from a place on. */
typedef struct {
    uint32_t place;
    uint32_t bytes;
} word;

/* What a line has: how many words, whether the first is 'from', whether all
 * others are offsets, and the first offsets, after their count as a route has
 * it. */
typedef struct {
    uint32_t words;
    int from;
    int offsets;
    uint16_t route[1 + IND_LARGEST_PLANNED];
} line;

/* ---- words */

static int is_blank(uint8_t byte)
{
    return byte == BLANK || byte == TAB || byte == CARRIAGE_RETURN;
}

/* Whether words go on at a place: the line and its words end at a line feed,
 * at the text's end, and its words at a comment. */
static int in_words(const ind_plan *plan, uint32_t place)
{
    return place < plan->length && plan->text[place] != LINE_FEED
        && plan->text[place] != COMMENT;
}

/* The word at or after a place; it has no bytes where the line has no more. */
static word next_word(const ind_plan *plan, uint32_t place)
{
    word found = { place, 0 };
    while (in_words(plan, found.place) && is_blank(plan->text[found.place]))
        found.place++;
    place = found.place;
    while (in_words(plan, place) && !is_blank(plan->text[place]))
        place++;
    found.bytes = place - found.place;
    return found;
}

static int is_from(const ind_plan *plan, word of)
{
    const uint8_t *bytes = plan->text + of.place;
    return of.bytes == 4 && bytes[0] == 'f' && bytes[1] == 'r'
        && bytes[2] == 'o' && bytes[3] == 'm';
}

/* The offset that a word is: decimal digits alone, at most 65535. */
static uint32_t offset_of(const ind_plan *plan, word of)
{
    uint32_t offset = 0;
    for (uint32_t i = 0; i < of.bytes; i++) {
        uint8_t byte = plan->text[of.place + i];
        if (byte < '0' || byte > '9')
            return NO_OFFSET;
        offset = TEN * offset + (uint32_t)(byte - '0');
        if (offset >= NO_OFFSET)
            return NO_OFFSET;
    }
    return offset;
}

/* One more word of a line. */
static void take_word(const ind_plan *plan, line *of, word taken)
{
    uint32_t offset;
    of->words++;
    if (of->words == 1 && is_from(plan, taken)) {
        of->from = 1;
        return;
    }
    offset = offset_of(plan, taken);
    if (offset == NO_OFFSET)
        of->offsets = 0;
    else if (of->route[0] < IND_LARGEST_PLANNED)
        of->route[++of->route[0]] = (uint16_t)offset;
}

/* Takes the words of the next line, and goes on to the line after it. */
static void take_line(ind_plan *plan, line *of)
{
    word taken = next_word(plan, plan->read);
    of->words = 0;
    of->from = 0;
    of->offsets = 1;
    of->route[0] = 0;
    while (taken.bytes > 0) {
        take_word(plan, of, taken);
        taken = next_word(plan, taken.place + taken.bytes);
    }
    plan->read = taken.place;
    while (plan->read < plan->length && plan->text[plan->read] != LINE_FEED)
        plan->read++;
    if (plan->read < plan->length)
        plan->read++;
    plan->line++;
}

/* ---- routes */

static int alike(const uint16_t *one, const uint16_t *other)
{
    uint32_t i = 0;
    while (i < one[0] && one[i] == other[i])
        i++;
    return one[i] == other[i];
}

/* Where to look for a route first: its words, mixed. */
static uint32_t first_bucket(const ind_plan *plan, const uint16_t *route)
{
    uint32_t mixed = 0;
    for (uint32_t i = 0; i <= route[0]; i++)
        mixed = (mixed ^ route[i]) * 16777619u;
    return (mixed ^ mixed >> 16) & (plan->buckets - 1);
}

/* The bucket of a route, or the empty one where it would have to be. */
static uint32_t bucket_of(const ind_plan *plan, const uint16_t *route)
{
    uint32_t at = first_bucket(plan, route);
    while (plan->bucket[at] != 0) {
        const ind_planned *here = &plan->route[plan->bucket[at]];
        if (alike(route, plan->words + here->place))
            break;
        at = (at + 1) & (plan->buckets - 1);
    }
    return at;
}

int ind_is_planned(const ind_plan *plan, const uint16_t *route)
{
    return plan->bucket[bucket_of(plan, route)] != 0;
}

static void name_start(ind_plan *plan, uint32_t offset)
{
    plan->starts += !plan->start[offset].named;
    plan->start[offset].named = 1;
}

/* One more route, the last from its start. */
static void keep_route(ind_plan *plan, const uint16_t *route)
{
    ind_planned_start *start = &plan->start[route[1]];
    uint32_t number = ++plan->routes;
    plan->route[number] = (ind_planned){ plan->used, 0, 0 };
    plan->bucket[bucket_of(plan, route)] = number;
    for (uint32_t i = 0; i <= route[0]; i++)
        plan->words[plan->used++] = route[i];
    name_start(plan, route[1]);
    if (start->first == 0)
        start->first = number;
    else
        plan->route[start->last].next = number;
    start->last = number;
}

/* ---- lines */

/* After a wrong 'from' line routes are from their first offsets again. */
static ind_line_fault take_from(ind_plan *plan, const line *of)
{
    plan->under_from = of->words == 2 && of->offsets;
    if (!plan->under_from)
        return IND_LINE_FROM;
    plan->from = of->route[1];
    name_start(plan, plan->from);
    return IND_LINE_RIGHT;
}

static ind_line_fault take_route(ind_plan *plan, const line *of)
{
    if (!of->offsets)
        return IND_LINE_WORD;
    if (of->words < IND_LEAST_PLANNED)
        return IND_LINE_TOO_FEW;
    if (of->words > IND_LARGEST_PLANNED)
        return IND_LINE_TOO_MANY;
    if (plan->under_from && of->route[1] != plan->from)
        return IND_LINE_ELSEWHERE;
    if (ind_is_planned(plan, of->route))
        return IND_LINE_AGAIN;
    keep_route(plan, of->route);
    return IND_LINE_RIGHT;
}

int ind_plan_line(ind_plan *plan)
{
    line next;
    if (plan->read == plan->length)
        return 0;
    take_line(plan, &next);
    if (next.words == 0)
        plan->fault = IND_LINE_RIGHT;
    else if (next.from)
        plan->fault = take_from(plan, &next);
    else
        plan->fault = take_route(plan, &next);
    return 1;
}

void ind_plan_begin(ind_plan *plan, const uint8_t *text, size_t length)
{
    plan->text = text;
    plan->length = (uint32_t)length;
    plan->read = 0;
    plan->line = 0;
    plan->fault = IND_LINE_RIGHT;
    plan->under_from = 0;
    plan->from = 0;
    plan->starts = 0;
    plan->routes = 0;
    plan->used = 0;
    for (uint32_t i = 0; i < IND_OFFSETS; i++)
        plan->start[i] = (ind_planned_start){ 0, 0, 0 };
    plan->buckets = 1;
    while (plan->buckets < length && plan->buckets < IND_PLAN_BUCKETS)
        plan->buckets *= 2;
    for (uint32_t i = 0; i < plan->buckets; i++)
        plan->bucket[i] = 0;
}

/* ---- comparison */

/* Forgets which routes from a start were listed; returns how many it has. */
static uint32_t none_listed(ind_plan *plan, uint32_t start)
{
    uint32_t routes = 0;
    for (uint32_t i = plan->start[start].first; i != 0;
         i = plan->route[i].next) {
        plan->route[i].listed = 0;
        routes++;
    }
    return routes;
}

ind_difference ind_plan_compare(ind_plan *plan, uint32_t start,
                                const uint16_t *list, uint32_t routes)
{
    uint32_t planned = none_listed(plan, start);
    ind_difference found = { 0, 0, 0 };
    for (; routes > 0; routes--) {
        uint32_t number = plan->bucket[bucket_of(plan, list)];
        if (number == 0) {
            found.extra++;
        } else {
            found.both++;
            plan->route[number].listed = 1;
        }
        list += 1 + list[0];
    }
    found.missing = planned - found.both;
    return found;
}
