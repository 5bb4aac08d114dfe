/* The first depot: its yard, and the plan of its signal engineer, which was compared with limit 64.
 *
 *   S3 -- 3 -- [5] -- 2 -- [7] -- 6 -- E5                         shed
 *                \            \-- 5 (buffer)
 *                 \-- 4 -----------------------.
 *                                               \
 *   S1 -- 4 -- [1] -- 6 -- [2] -- 5 ----------- [6] -- 4 -- E1    yard
 *                \            \-- 90 ---------------------- E4    test track
 *                 \-- 3 --.
 *                          \
 *   S2 -- 7 --------------- [3] -- 18 -- [4] -- 34 -- E2          stabling roads
 *                                          \--- 33 -- E3
 *
 * A number stands for so many signals, balises and joints on a way. A turnout's front is on its left, but for [3] and [6], where two ways
 * meet; the leg drawn straight on is its normal one. From S1 the way over the test track has 104 objects, the longest others 64 and 63.
 *
 * depot yard writes the X.2 to standard output, depot plan the plan, and depot slips the same plan with slips: a route left out, one with a
 * wrong offset, and lines that are wrong. A route of the plan is put together from the ways that it runs over. */
#include <stdio.h>
#include <string.h>

#include "records.h"

enum { STATION = 415, DATA_VERSION = 3, MOST_OBJECTS = 300, STEP = 2500 };

/* ---- objects and ways */

enum kind { START, END, TURNOUT, BALISE, SIGNAL, JOINT, KINDS, NO_OBJECT = KINDS };

static const unsigned sizes[KINDS] = { 12, 12, 24, 16, 19, 18 };

/* Boundaries and turnouts, and where a way ends in nothing. All other objects stand on a way. */
enum node { S1, S2, S3, E1, E2, E3, E4, E5, T1, T2, T3, T4, T5, T6, T7, NODES, BUFFER = NODES };

enum { STARTS = E1 - S1, ENDS = T1 - E1 };
enum { HEADER = 35 + 3 * (STARTS + ENDS) };

/* The sides of an object, in the order of its links: a boundary has one, a turnout three, all others two. */
enum port { ONLY = 0, PREVIOUS = 0, NEXT = 1, FRONT = 0, NORMAL = 1, REVERSE = 2, PORTS = 3 };

typedef struct {
    enum kind kind;
    unsigned offset;
    side sides[PORTS];
} object;

/* A way from one node to another, with so many objects between. Their kinds are these letters, over and over: s, b and j for signal, balise
 * and joint. Each way is a track of its own. */
typedef struct {
    enum node from;
    enum port by;
    enum node to;
    enum port to_port;
    unsigned between;
    const char *kinds;
} way;

enum way_name {
    ENTRY_1, ENTRY_2, ENTRY_3, YARD_LEAD, YARD_ROAD, YARD_EXIT, TEST_TRACK, CROSSING, STABLING_LEAD, ROAD_A, ROAD_B, SHED_LEAD, SHED_ROAD,
    SHED_BUFFER, TO_YARD, WAYS, END_OF_ROUTE = WAYS
};

static const way ways[WAYS] = {
    [ENTRY_1] = { S1, ONLY, T1, FRONT, 4, "sbj" },
    [ENTRY_2] = { S2, ONLY, T3, NORMAL, 7, "sbjj" },
    [ENTRY_3] = { S3, ONLY, T5, FRONT, 3, "sbj" },
    [YARD_LEAD] = { T1, NORMAL, T2, FRONT, 6, "jjs" },
    [YARD_ROAD] = { T2, NORMAL, T6, NORMAL, 5, "jbsjj" },
    [YARD_EXIT] = { T6, FRONT, E1, ONLY, 4, "jjbs" },
    [TEST_TRACK] = { T2, REVERSE, E4, ONLY, 90, "jjjbjs" },
    [CROSSING] = { T1, REVERSE, T3, REVERSE, 3, "jsj" },
    [STABLING_LEAD] = { T3, FRONT, T4, FRONT, 18, "jbjs" },
    [ROAD_A] = { T4, NORMAL, E2, ONLY, 34, "jjs" },
    [ROAD_B] = { T4, REVERSE, E3, ONLY, 33, "jjs" },
    [SHED_LEAD] = { T5, NORMAL, T7, FRONT, 2, "js" },
    [SHED_ROAD] = { T7, NORMAL, E5, ONLY, 6, "jbs" },
    [SHED_BUFFER] = { T7, REVERSE, BUFFER, ONLY, 5, "jsjjj" },
    [TO_YARD] = { T5, REVERSE, T6, REVERSE, 4, "jsjj" },
};

static object objects[MOST_OBJECTS];
static unsigned count;

/* The first object between the ends of each way; the others follow it. */
static unsigned first_between[WAYS];

static enum kind kind_of(char letter)
{
    return letter == 's' ? SIGNAL : letter == 'b' ? BALISE : JOINT;
}

static unsigned track_of(enum way_name name)
{
    return (unsigned)name + 1;
}

/* Two neighbours on a way name each other. The first of them stands at so many steps from the way's start, and the other at one more. */
static void link_objects(enum way_name name, unsigned steps, unsigned one, enum port by, unsigned other, enum port to_port)
{
    objects[one].sides[by] = (side){ STEP * steps, other, track_of(name) };
    objects[other].sides[to_port] = (side){ STEP * (steps + 1), one, track_of(name) };
}

static void lay_way(enum way_name name)
{
    const way *w = &ways[name];
    unsigned last = w->from;
    enum port by = w->by;
    first_between[name] = count;
    for (unsigned i = 0; i < w->between; i++) {
        objects[count].kind = kind_of(w->kinds[i % strlen(w->kinds)]);
        link_objects(name, i, last, by, count, PREVIOUS);
        last = count++;
        by = NEXT;
    }
    if (w->to == BUFFER)
        objects[last].sides[NEXT] = (side){ 0, BUFFER, track_of(name) };
    else
        link_objects(name, w->between, last, by, w->to, w->to_port);
}

/* Objects stand by kind, and those of a kind in the order in which they were laid. */
static void place_objects(void)
{
    unsigned offset = HEADER;
    for (enum kind kind = START; kind < KINDS; kind++)
        for (unsigned i = 0; i < count; i++)
            if (objects[i].kind == kind) {
                objects[i].offset = offset;
                offset += sizes[kind];
            }
}

/* All objects with their links and offsets. A link to the buffer is 0, since it is no object. */
static void lay_yard(void)
{
    for (count = 0; count < NODES; count++)
        objects[count].kind = count < E1 ? START : count < T1 ? END : TURNOUT;
    objects[count++].kind = NO_OBJECT;
    for (enum way_name name = ENTRY_1; name < WAYS; name++)
        lay_way(name);
    place_objects();
}

/* ---- the X.2 */

static unsigned first_offset(enum kind kind)
{
    for (unsigned i = 0; i < count; i++)
        if (objects[i].kind == kind)
            return objects[i].offset;
    return 0;
}

static void put_entries(unsigned first, unsigned entries)
{
    put(entries, 1);
    for (unsigned i = first; i < first + entries; i++)
        put_entry(objects[i].sides[ONLY].track, objects[i].offset);
}

static void put_header(void)
{
    put_opening(APPLICATION, VERSION_1, DATA_VERSION, STATION);
    put_text("\xB3\xB5\xC1\xBE\xB6\xCE", 16);
    put_entries(S1, STARTS);
    put_entries(E1, ENDS);
    put_groups(first_offset(TURNOUT), first_offset(BALISE), first_offset(SIGNAL), first_offset(JOINT), 0);
}

/* A side with its link as an offset. */
static side linked(const object *of, enum port port)
{
    side linked = of->sides[port];
    linked.link = objects[linked.link].offset;
    return linked;
}

/* The name of an object: a letter and which of its kind it is, from 1. */
static const char *named(char letter, unsigned index)
{
    static char name[16];
    sprintf(name, "%c%u", letter, index);
    return name;
}

/* An object, and which of its kind it is. */
static void put_object(const object *of, unsigned index)
{
    side first = linked(of, PREVIOUS), second = linked(of, NEXT);
    switch (of->kind) {
    case START: put_boundary(DOWN_START, first.link, 0, UNKNOWN, 0, first.position, first.track); break;
    case END: put_boundary(DOWN_END, first.link, 0, UNKNOWN, 0, first.position, first.track); break;
    case TURNOUT: put_turnout(index, 1, first, second, linked(of, REVERSE)); break;
    case BALISE: put_balise(first.link, second.link, index, first.position, 0, "", 0); break;
    case SIGNAL: put_signal(first.link, second.link, named('X', index), first.position, first.track, DOWN_ENTRY); break;
    default: put_joint(first.link, second.link, named('J', index), first.position, first.track); break;
    }
}

static void put_objects(enum kind kind)
{
    unsigned index = 0;
    for (unsigned i = 0; i < count; i++)
        if (objects[i].kind == kind)
            put_object(&objects[i], ++index);
}

static int write_yard(void)
{
    put_header();
    for (enum kind kind = START; kind < KINDS; kind++)
        put_objects(kind);
    return write_file();
}

/* ---- the plan */

enum { MOST_WAYS = 6 };

/* A route: where it starts, and the ways that it runs over, in either direction. */
typedef struct {
    enum node start;
    enum way_name over[MOST_WAYS];
} route;

static const route to_shed = { S3, { ENTRY_3, SHED_LEAD, SHED_ROAD, END_OF_ROUTE } };
static const route from_3_to_yard = { S3, { ENTRY_3, TO_YARD, YARD_EXIT, END_OF_ROUTE } };
static const route from_2_to_a = { S2, { ENTRY_2, STABLING_LEAD, ROAD_A, END_OF_ROUTE } };
static const route from_2_to_b = { S2, { ENTRY_2, STABLING_LEAD, ROAD_B, END_OF_ROUTE } };
static const route from_1_to_yard = { S1, { ENTRY_1, YARD_LEAD, YARD_ROAD, YARD_EXIT, END_OF_ROUTE } };
static const route from_1_to_a = { S1, { ENTRY_1, CROSSING, STABLING_LEAD, ROAD_A, END_OF_ROUTE } };
static const route from_1_to_b = { S1, { ENTRY_1, CROSSING, STABLING_LEAD, ROAD_B, END_OF_ROUTE } };
static const route yard_to_1 = { E1, { YARD_EXIT, YARD_ROAD, YARD_LEAD, ENTRY_1, END_OF_ROUTE } };
static const route yard_to_3 = { E1, { YARD_EXIT, TO_YARD, ENTRY_3, END_OF_ROUTE } };

/* What the plan with slips has of a line: the same, nothing, the route with its third offset one too high, or the line twice. SLIP is a
 * line of that plan alone. */
enum slip { SAME, LEFT_OUT, WRONG_OFFSET, TWICE, SLIP };

/* A line: words, or `from` with a node's offset, or a route; then a remark. */
typedef struct {
    enum slip slip;
    const char *words;
    enum node start;
    const route *runs;
    const char *remark;
} line;

#define WORDS(slip, words) { slip, words, BUFFER, NULL, "" }
#define FROM(slip, node, remark) { slip, NULL, node, NULL, remark }
#define ROUTE(slip, runs, remark) { slip, NULL, BUFFER, &runs, remark }

static const line lines[] = {
    WORDS(SAME, "# Depot 415, data version 3: the routes of the interlocking, of at most 64 objects each."),
    WORDS(SAME, "# A line is a route, by the offsets of its objects in the X.2 file."),
    WORDS(SAME, ""),
    WORDS(SAME, "# Entry 3"),
    ROUTE(SAME, from_3_to_yard, "  # over the crossing"),
    ROUTE(TWICE, to_shed, ""),
    WORDS(SAME, ""),
    WORDS(SLIP, "from"),
    FROM(LEFT_OUT, S2, " # entry 2"),
    ROUTE(WRONG_OFFSET, from_2_to_b, ""),
    ROUTE(SAME, from_2_to_a, ""),
    WORDS(SLIP, "83"),
    WORDS(SAME, ""),
    FROM(SAME, S1, " # entry 1"),
    ROUTE(SAME, from_1_to_b, ""),
    ROUTE(LEFT_OUT, from_1_to_a, " # the longest"),
    ROUTE(SLIP, to_shed, ""),
    ROUTE(SAME, from_1_to_yard, ""),
    WORDS(SLIP, "59 323 [1] 155"),
    WORDS(SAME, ""),
    WORDS(SAME, "# Drivers work the yard both ways."),
    FROM(SAME, E1, ""),
    ROUTE(SAME, yard_to_3, ""),
    ROUTE(SAME, yard_to_1, ""),
    FROM(SLIP, T1, " # a turnout"),
};

enum { LINES = sizeof lines / sizeof lines[0] };

/* The objects of a route, from where it starts; returns how many. */
static unsigned run(const route *runs, unsigned *list)
{
    unsigned length = 0;
    enum node at = runs->start;
    list[length++] = at;
    for (const enum way_name *over = runs->over; *over != END_OF_ROUTE; over++) {
        const way *w = &ways[*over];
        int onwards = w->from == at;
        for (unsigned i = 0; i < w->between; i++)
            list[length++] = first_between[*over] + (onwards ? i : w->between - 1 - i);
        at = onwards ? w->to : w->from;
        list[length++] = at;
    }
    return length;
}

static void write_route(const route *runs, int wrong)
{
    unsigned list[MOST_OBJECTS];
    unsigned length = run(runs, list);
    for (unsigned i = 0; i < length; i++)
        printf(i == 0 ? "%u" : " %u", objects[list[i]].offset + (wrong && i == 2));
}

static void write_line(const line *of, int slips)
{
    if (of->words != NULL)
        printf("%s", of->words);
    else if (of->runs != NULL)
        write_route(of->runs, slips && of->slip == WRONG_OFFSET);
    else
        printf("from %u", objects[of->start].offset);
    printf("%s\n", of->remark);
}

static int write_plan(int slips)
{
    for (unsigned i = 0; i < LINES; i++) {
        enum slip slip = lines[i].slip;
        if (slip == SLIP ? !slips : slips && slip == LEFT_OUT)
            continue;
        write_line(&lines[i], slips);
        if (slips && slip == TWICE)
            write_line(&lines[i], slips);
    }
    return fflush(stdout) == 0;
}

/* ---- the files */

int main(int words, char **word)
{
    const char *name = words == 2 ? word[1] : "";
    lay_yard();
    if (strcmp(name, "yard") == 0)
        return write_yard() ? 0 : 1;
    if (strcmp(name, "plan") == 0)
        return write_plan(0) ? 0 : 1;
    if (strcmp(name, "slips") == 0)
        return write_plan(1) ? 0 : 1;
    fputs("usage: depot yard|plan|slips\n", stderr);
    return 2;
}
