/* What docs/PLAN.md says that yardplan prints, for an X.2 and a plan. */
#include "plan.h"

#include <string.h>

#include "answer.h"
#include "commands.h"
#include "number.h"

enum {
    PLAN_LIMIT = 0,
    PLAN_BUDGET = 65535,
    PLAN_ROOM = 65535
};

static ind_plan plan;

/* ---- the plan's lines */

static const char *const faults[IND_LINE_FAULTS] = {
    [IND_LINE_FROM] = "'from' takes one offset from 0 to 65535",
    [IND_LINE_WORD] = "a word is no offset from 0 to 65535",
    [IND_LINE_TOO_FEW] = "a route has at least 2 offsets",
    [IND_LINE_TOO_MANY] = "a route has at most 512 offsets",
    [IND_LINE_ELSEWHERE] = "the route does not start at the offset of the "
                           "'from' line above it",
    [IND_LINE_AGAIN] = "the route stands in an earlier line"
};

/* Reads all lines, and says which are wrong. Of a plan that is too long none
 * is read. */
static void read_plan(FILE *said, const planned_yard *of)
{
    int too_long = of->plan_length > IND_LARGEST_PLAN;
    ind_plan_begin(&plan, of->plan, too_long ? 0 : of->plan_length);
    if (too_long) {
        fprintf(said, "yardplan: the plan is longer than %lu bytes\n",
                (unsigned long)IND_LARGEST_PLAN);
        return;
    }
    while (ind_plan_line(&plan))
        if (plan.fault != IND_LINE_RIGHT)
            fprintf(said, "yardplan: line %lu of the plan: %s\n",
                    (unsigned long)plan.line, faults[plan.fault]);
    if (plan.starts == 0)
        fputs("yardplan: the plan names no start\n", said);
}

/* ---- what is printed */

static void print_route(FILE *output, const char *kind, const uint16_t *route)
{
    fprintf(output, "%s ", kind);
    print_route_line(output, route);
}

/* The routes of a list that are planned, or those that are not. */
static void print_listed(FILE *output, const char *kind, int planned,
                         const uint16_t *list, uint32_t routes)
{
    for (; routes > 0; routes--) {
        if (ind_is_planned(&plan, list) == planned)
            print_route(output, kind, list);
        list += 1 + list[0];
    }
}

static void print_missing(FILE *output, uint32_t start)
{
    for (uint32_t i = plan.start[start].first; i != 0;
         i = plan.route[i].next)
        if (!plan.route[i].listed)
            print_route(output, "missing", plan.words + plan.route[i].place);
}

static void print_difference(FILE *output, uint32_t start,
                             const uint16_t *list, uint32_t routes)
{
    ind_difference found = ind_plan_compare(&plan, start, list, routes);
    if (found.missing == 0 && found.extra == 0) {
        fprintf(output, "from %lu agrees %lu routes\n", (unsigned long)start,
                (unsigned long)found.both);
        return;
    }
    fprintf(output, "from %lu differs both %lu missing %lu extra %lu\n",
            (unsigned long)start, (unsigned long)found.both,
            (unsigned long)found.missing, (unsigned long)found.extra);
    print_listed(output, "both", 1, list, routes);
    print_missing(output, start);
    print_listed(output, "extra", 0, list, routes);
}

/* The routes from a start, by the lister that is asked for. */
static ind_routes list_start(const planned_yard *of, uint32_t start,
                             uint16_t *list)
{
    static ind_walks walks;
    if (of->flat)
        return ind_routes_flat(of->file, of->length, start, of->limit,
                               of->budget, list, of->room);
    return ind_routes_from(of->file, of->length, start, of->limit, of->budget,
                           list, of->room, &walks);
}

static void print_start(FILE *output, const planned_yard *of, uint32_t start)
{
    static uint16_t list[PLAN_ROOM];
    ind_routes found = list_start(of, start, list);
    if (found.answer.number != IND_ACCEPTED)
        fprintf(output, "from %lu refused %lu\n", (unsigned long)start,
                (unsigned long)found.answer.number);
    else
        print_difference(output, start, list, found.routes);
}

void print_plan(FILE *output, FILE *said, const planned_yard *of)
{
    ind_answer verdict = ind_x2(of->file, of->length);
    read_plan(said, of);
    fprintf(output, "verdict %lu %lu\n", (unsigned long)verdict.number,
            (unsigned long)verdict.place);
    for (uint32_t start = 0; start < IND_OFFSETS; start++)
        if (plan.start[start].named)
            print_start(output, of, start);
}

/* ---- the command */

/* Reads a file into so many bytes; -1 where it cannot be read. */
static long read_bytes(const char *name, uint8_t *bytes, size_t room)
{
    FILE *file = fopen(name, "rb");
    size_t length;
    int failed;
    if (file == NULL)
        return -1;
    length = fread(bytes, 1, room, file);
    failed = ferror(file);
    fclose(file);
    return failed ? -1 : (long)length;
}

/* One byte more than a file or a plan may have is read, so that a longer one
 * is seen to be too long. */
int read_planned(const char *file, const char *text, planned_yard *of)
{
    static uint8_t bytes[IND_LARGEST_FILE + 1];
    static uint8_t plan_bytes[IND_LARGEST_PLAN + 1];
    long length = read_bytes(file, bytes, sizeof bytes);
    long plan_length = read_bytes(text, plan_bytes, sizeof plan_bytes);
    if (length < 0 || plan_length < 0) {
        fprintf(stderr, "independent: %s cannot be read\n",
                length < 0 ? file : text);
        return 0;
    }
    of->file = bytes;
    of->length = (size_t)length;
    of->plan = plan_bytes;
    of->plan_length = (size_t)plan_length;
    return 1;
}

/* A number of a listing, at most this one; it stays where it is left out. */
static int read_asked(int count, char **words, int index, uint32_t most,
                      uint32_t *value)
{
    uint64_t number;
    if (index >= count)
        return 1;
    if (!read_number(words[index], &number) || number > most)
        return 0;
    *value = (uint32_t)number;
    return 1;
}

/* Whether the last word, after FILE and PLAN, asks for the second lister. */
static int asks_flat(int count, char **words)
{
    return count > 2
        && strcmp(words[count - 1], question_name(ASK_ROUTES2)) == 0;
}

int command_plan(int count, char **words)
{
    planned_yard of = { NULL,        0,         NULL, 0, PLAN_LIMIT,
                        PLAN_BUDGET, PLAN_ROOM, asks_flat(count, words) };
    count -= of.flat;
    if (count < 2 || count > 5
        || !read_asked(count, words, 2, UINT32_MAX, &of.limit)
        || !read_asked(count, words, 3, UINT32_MAX, &of.budget)
        || !read_asked(count, words, 4, PLAN_ROOM, &of.room)) {
        fputs("independent: plan takes FILE PLAN [LIMIT [BUDGET [ROOM]]] "
              "[routes2], numbers below 4294967296 and a room of at most "
              "65535\n",
              stderr);
        return RUN_MISUSED;
    }
    if (!read_planned(words[0], words[1], &of))
        return RUN_BAD;
    print_plan(stdout, stderr, &of);
    return RUN_WELL;
}
