/* Plans for a yard: its own routes, shuffled, left out, changed and doubled;
 * 'from' lines, comments, blanks of all kinds, and wrong words. */
#include "plans.h"

#include <stdio.h>
#include <string.h>

#include "cases.h"
#include "core/core.h"
#include "make.h"

enum {
    STARTS_LARGEST = 6,
    ROUTES_LARGEST = 4000,
    POOL_WORDS = 2 * ROOM_LARGEST,
    /* A line may have a few offsets more than a route. */
    LINE_WORDS = 600,
    /* No line is begun where the text has so many bytes. */
    TEXT_ENOUGH = 120000,
    /* Digits of a very long word. */
    DIGITS_LARGEST = 300
};

/* A plan under way: its text, the routes that it is drawn from by their count
 * words in the pool, and one slip among so many lines; 0 for none. */
typedef struct {
    source *from;
    const stored *file;
    plan_text *text;
    uint32_t slips;
    uint32_t routes;
    const uint16_t *route[ROUTES_LARGEST];
    uint32_t used;
    uint16_t pool[POOL_WORDS];
} draft;

/* ---- bytes and words */

static void put_byte(draft *of, uint8_t byte)
{
    if (of->text->length < PLAN_TEXT_ROOM)
        of->text->bytes[of->text->length++] = byte;
}

static void put_text(draft *of, const char *text)
{
    for (; *text != '\0'; text++)
        put_byte(of, (uint8_t)*text);
}

static void put_times(draft *of, char byte, uint32_t times)
{
    while (times-- > 0)
        put_byte(of, (uint8_t)byte);
}

/* An offset: now and then with zeros before it, seldom with very many. */
static void put_offset(draft *of, uint32_t offset)
{
    char digits[16];
    if (once_in(of->from, 40))
        put_times(of, '0', 1 + draw(of->from, once_in(of->from, 8)
                                        ? DIGITS_LARGEST : 3));
    sprintf(digits, "%lu", (unsigned long)offset);
    put_text(of, digits);
}

/* What parts two words, or stands around them. */
static void put_gap(draft *of)
{
    static const char *const gaps[] = { "  ", "\t", " \t ", "\r", "\r \t" };
    put_text(of, once_in(of->from, 12) ? ONE_OF(of->from, gaps) : " ");
}

/* A comment: what stands in it means nothing. */
static void put_comment(draft *of)
{
    static const char *const comments[] = { "#", "# entry 2", "#44 80 56",
                                            "# from 44", "##", "# x # y",
                                            "#\t\r" };
    put_text(of, ONE_OF(of->from, comments));
    if (once_in(of->from, 8))
        put_byte(of, (uint8_t)(0x80 + draw(of->from, 0x80)));
    if (once_in(of->from, 16))
        put_byte(of, 0);
}

static void end_line(draft *of)
{
    if (once_in(of->from, 12))
        put_gap(of);
    if (once_in(of->from, 12))
        put_comment(of);
    if (once_in(of->from, 12))
        put_byte(of, '\r');
    put_byte(of, '\n');
}

/* A word that is an offset only to a reader that cuts numbers short. */
static void put_large(draft *of, uint32_t offset)
{
    static const char *const words[] = {
        "65536", "65537", "99999", "4294967295", "4294967296",
        "18446744073709551615", "18446744073709551616",
        "340282366920938463463374607431768211456"
    };
    char digits[32];
    switch (draw(of->from, 4)) {
    case 0:
        sprintf(digits, "%lu", (unsigned long)offset + 65536);
        put_text(of, digits);
        break;
    case 1:
        sprintf(digits, "%llu", offset + 4294967296ULL);
        put_text(of, digits);
        break;
    case 2:
        put_times(of, '9', 1 + draw(of->from, DIGITS_LARGEST));
        put_text(of, "99999");
        break;
    default: put_text(of, ONE_OF(of->from, words)); break;
    }
}

/* A word that is no offset, but looks much like this one. */
static void put_wrong_word(draft *of, uint32_t offset)
{
    static const char *const around[][2] = {
        { "-", "" },    { "+", "" },    { "", "." },    { "", "," },
        { "", "x" },    { "0x", "" },   { "", "-" },    { "[", "]" },
        { "", ".0" },   { "'", "'" },   { "\v", "" },   { "", "\f" },
        { "", "e0" },   { "from", "" }, { "\xA0", "" }, { "", "\x1A" },
        { "", "/" },    { ":", "" }
    };
    static const char *const words[] = { "x", "-1", "from", "From", "FROM",
                                         "froM", "fro", "-", "\x7F", "44;" };
    const char *const *marks = ONE_OF(of->from, around);
    switch (draw(of->from, 4)) {
    case 0: put_large(of, offset); break;
    case 1: put_text(of, ONE_OF(of->from, words)); break;
    case 2:
        put_offset(of, offset);
        put_byte(of, 0);
        break;
    default:
        put_text(of, marks[0]);
        put_offset(of, offset);
        put_text(of, marks[1]);
        break;
    }
}

/* ---- lines */

/* An offset for a start: that of a route, one beside it, any. */
static uint32_t some_planned_start(const draft *of)
{
    enum { FIRST_PLACE = 41 };
    uint32_t start = of->routes > 0
        ? of->route[draw(of->from, of->routes)][1]
        : FIRST_PLACE;
    uint32_t in_file = draw(of->from, of->file->length + 1);
    uint32_t any = draw(of->from, IND_OFFSETS);
    const uint32_t values[] = { start,     start,
                                start,     start + IND_BOUNDARY_SIZE,
                                start + 1, start - 1,
                                0,         IND_OFFSETS - 1,
                                in_file,   any };
    return ONE_OF(of->from, values) % IND_OFFSETS;
}

static void from_line(draft *of, uint32_t offset)
{
    if (once_in(of->from, 12))
        put_gap(of);
    put_text(of, "from");
    put_gap(of);
    put_offset(of, offset);
    end_line(of);
}

/* A 'from' line that is wrong, or just looks so. */
static void odd_from_line(draft *of)
{
    static const char *const lines[] = { "from",         "from\t",
                                         "from#44",      "from # 44",
                                         "from -1",      "from 1 2",
                                         "from 44 80 56", "from 65536",
                                         "from from",    "from 44 x",
                                         "from x 44",    "from 00065535",
                                         "from 44#80",   "from 4294967340" };
    if (once_in(of->from, 2)) {
        put_text(of, ONE_OF(of->from, lines));
    } else {
        put_text(of, "from ");
        put_wrong_word(of, some_planned_start(of));
    }
    end_line(of);
}

/* So many offsets, the one with this index as a wrong word. */
static void offsets_line(draft *of, const uint16_t *offsets, uint32_t count,
                         uint32_t wrong)
{
    if (once_in(of->from, 12))
        put_gap(of);
    for (uint32_t i = 0; i < count; i++) {
        if (i > 0)
            put_gap(of);
        if (i == wrong)
            put_wrong_word(of, offsets[i]);
        else
            put_offset(of, offsets[i]);
    }
    end_line(of);
}

static void route_line(draft *of, const uint16_t *route)
{
    offsets_line(of, route + 1, route[0], LINE_WORDS);
}

/* A line that says nothing, or something wrong. */
static void stray_line(draft *of)
{
    static const char *const lines[] = { "44",     "44#80",  "FROM 44",
                                         "From 44", "from44", "44 44",
                                         "0 0",    "x",      "44from",
                                         "froM 44", "65535 0" };
    switch (draw(of->from, 6)) {
    case 0: break;
    case 1: put_comment(of); break;
    case 2: put_gap(of); break;
    case 3: put_offset(of, some_planned_start(of)); break;
    case 4: odd_from_line(of); return;
    default: put_text(of, ONE_OF(of->from, lines)); break;
    }
    end_line(of);
}

/* ---- routes with slips */

/* A line of this many offsets, about as many as a route may have. */
static void long_line(draft *of, const uint16_t *route)
{
    static const uint32_t counts[] = { 510, 511, 512, 513, 514, LINE_WORDS };
    uint16_t offsets[LINE_WORDS];
    uint32_t count = ONE_OF(of->from, counts);
    for (uint32_t i = 0; i < count; i++)
        offsets[i] = route[1 + i % route[0]];
    offsets_line(of, offsets, count,
                 once_in(of->from, 6) ? draw(of->from, count) : LINE_WORDS);
}

/* One offset of a route changed, or two beside each other swapped. */
static void change_offset(draft *of, uint16_t *route)
{
    uint32_t at = 1 + draw(of->from, route[0]);
    uint32_t before = at == 1 ? route[0] : at - 1;
    uint16_t kept = route[at];
    switch (draw(of->from, 4)) {
    case 0: route[at] = (uint16_t)draw(of->from, IND_OFFSETS); break;
    case 1: route[at] = (uint16_t)(kept + 1); break;
    case 2: route[at] = (uint16_t)(kept - 1); break;
    default:
        route[at] = route[before];
        route[before] = kept;
        break;
    }
}

static void turn_round(uint16_t *route)
{
    for (uint32_t low = 1, high = route[0]; low < high; low++, high--) {
        uint16_t kept = route[low];
        route[low] = route[high];
        route[high] = kept;
    }
}

/* A route cut at its end, cut at its start, lengthened, or changed. */
static void change_route(draft *of, uint16_t *route)
{
    switch (draw(of->from, 6)) {
    case 0: route[0] = (uint16_t)(1 + draw(of->from, route[0])); break;
    case 1:
        memmove(route + 1, route + 2, --route[0] * sizeof *route);
        break;
    case 2:
        route[0]++;
        route[route[0]] = (uint16_t)draw(of->from, IND_OFFSETS);
        break;
    case 3: turn_round(route); break;
    default: change_offset(of, route); break;
    }
}

/* A route with a slip. */
static void slipped_route(draft *of, const uint16_t *right)
{
    uint16_t route[1 + LINE_WORDS];
    memcpy(route, right, (1 + (size_t)right[0]) * sizeof *route);
    switch (draw(of->from, 8)) {
    case 0: break;
    case 1: long_line(of, right); break;
    case 2:
        route_line(of, right);
        route_line(of, right);
        break;
    case 3:
        offsets_line(of, right + 1, right[0], draw(of->from, right[0]));
        break;
    case 4:
        from_line(of, some_planned_start(of));
        route_line(of, right);
        break;
    default:
        change_route(of, route);
        route_line(of, route);
        break;
    }
}

static int slips(draft *of)
{
    return of->slips > 0 && once_in(of->from, of->slips);
}

static void planned_route(draft *of, const uint16_t *route)
{
    if (of->text->length >= TEXT_ENOUGH)
        return;
    if (slips(of))
        slipped_route(of, route);
    else
        route_line(of, route);
    if (slips(of))
        stray_line(of);
}

/* ---- plans */

/* The routes from a start, as many as there is room for. */
static void take_routes(draft *of, uint32_t start, uint32_t limit)
{
    static ind_walks walks;
    uint32_t left = POOL_WORDS - of->used;
    uint16_t *words = of->pool + of->used;
    ind_routes found = ind_routes_from(
        of->file->bytes, of->file->length, start, limit, IND_LARGEST_BUDGET,
        words, left < ROOM_LARGEST ? left : ROOM_LARGEST, &walks);
    of->used += found.words;
    for (uint32_t i = 0; i < found.routes && of->routes < ROUTES_LARGEST;
         i++) {
        of->route[of->routes++] = words;
        words += 1 + words[0];
    }
}

static void shuffle_routes(draft *of, uint32_t first)
{
    for (uint32_t i = of->routes; i > first + 1; i--) {
        uint32_t other = first + draw(of->from, i - first);
        const uint16_t *kept = of->route[i - 1];
        of->route[i - 1] = of->route[other];
        of->route[other] = kept;
    }
}

/* The routes of several boundaries, of each in any order. */
static void draw_routes(draft *of, uint32_t limit)
{
    ind_layout layout;
    uint32_t boundaries, at, starts;
    if (ind_application(of->file->bytes, of->file->length, &layout).number
        != IND_ACCEPTED)
        return;
    boundaries = layout.starts + layout.ends;
    at = draw(of->from, boundaries);
    starts = 1 + draw(of->from, STARTS_LARGEST);
    while (starts-- > 0 && boundaries-- > 0) {
        uint32_t first = of->routes;
        uint32_t all = layout.starts + layout.ends;
        take_routes(of, layout.header + IND_BOUNDARY_SIZE * (at++ % all),
                    limit);
        shuffle_routes(of, first);
    }
}

/* Each route under a 'from' line of its start, but for those of the first
 * start now and then. */
static void grouped_plan(draft *of)
{
    int bare = once_in(of->from, 3);
    for (uint32_t i = 0; i < of->routes; i++) {
        uint32_t start = of->route[i][1];
        int first = i == 0 || of->route[i - 1][1] != start;
        if (first && (i > 0 || !bare)) {
            if (slips(of))
                odd_from_line(of);
            else if (!slips(of))
                from_line(of, start);
        }
        planned_route(of, of->route[i]);
    }
}

/* All routes in any order; a 'from' line is a slip. */
static void mixed_plan(draft *of)
{
    shuffle_routes(of, 0);
    for (uint32_t i = 0; i < of->routes; i++) {
        if (slips(of))
            from_line(of, some_planned_start(of));
        planned_route(of, of->route[i]);
    }
}

/* Lines that have nothing to do with the yard's routes, or none at all. */
static void stray_plan(draft *of)
{
    uint32_t lines = draw(of->from, 12);
    int silent = once_in(of->from, 4);
    while (lines-- > 0) {
        if (silent) {
            if (once_in(of->from, 2))
                put_comment(of);
            end_line(of);
        } else if (once_in(of->from, 3)) {
            from_line(of, some_planned_start(of));
        } else {
            stray_line(of);
        }
    }
}

/* Up to the largest plan, a byte more, or a few: with a comment or with line
 * feeds. */
static void fill_plan(draft *of)
{
    uint32_t length = IND_LARGEST_PLAN
        + (once_in(of->from, 2) ? draw(of->from, 2) : draw(of->from, 1000));
    uint8_t fill = once_in(of->from, 2) ? '#' : '\n';
    while (of->text->length < length)
        put_byte(of, fill);
}

static void make_plan(source *from, const stored *file, uint32_t limit,
                      plan_text *text)
{
    static const uint32_t most[] = { 2, 4, 30 };
    static draft of;
    of.from = from;
    of.file = file;
    of.text = text;
    of.slips = once_in(from, 3) ? 0 : 2 + draw(from, ONE_OF(from, most));
    of.routes = 0;
    of.used = 0;
    text->length = 0;
    draw_routes(&of, limit);
    if (of.routes == 0 || once_in(from, 10))
        stray_plan(&of);
    else if (once_in(from, 3))
        mixed_plan(&of);
    else
        grouped_plan(&of);
    if (slips(&of))
        from_line(&of, some_planned_start(&of));
    if (once_in(from, 300))
        fill_plan(&of);
    else if (text->length > 0 && once_in(from, 4))
        text->length--;
}

/* ---- cases */

/* A right X.2 with routes, one in three with long ways. */
static void make_routes_file(source *from, stored *file)
{
    static yard made;
    size_wanted size = once_in(from, 5) ? SIZE_MIDDLE : SIZE_SMALL;
    yard_shape shape = (yard_shape)draw(from, YARD_SHAPES);
    if (once_in(from, 3))
        shape = once_in(from, 2) ? YARD_LONG_LINE : YARD_LONG_WAYS;
    make_route_yard(from, shape, size, 1, &made);
    lay_out(&made, NULL, file);
}

/* Any small X.2, most often damaged. */
static void make_any_file(source *from, stored *file)
{
    static asked ask;
    generation run;
    memset(&run, 0, sizeof run);
    run.seed = draw_bits(from);
    run.kinds.asked_for[ASK_X2] = 1;
    run.kinds.small = 1;
    build_case(&run, 0, &ask);
    memcpy(file, &ask.files[0], sizeof *file);
}

static void make_file(source *from, stored *file)
{
    if (once_in(from, 8))
        make_any_file(from, file);
    else
        make_routes_file(from, file);
}

/* What to ask with: most often what the plan was drawn by. */
static void draw_asked(source *from, uint32_t limit, plan_case *made)
{
    static const uint32_t limits[] = { 0,   0,   2,   8,   63, 64,
                                       65,  159, 160, 161, 511, 512 };
    static const uint32_t bad[] = { 1, 513, 65536 + 64, 0xFFFFFFFF };
    static const uint32_t bad_budgets[] = { 0, 65536, 0xFFFFFFFF };
    made->limit = once_in(from, 3) ? ONE_OF(from, limits) : limit;
    made->budget = IND_LARGEST_BUDGET;
    made->room = once_in(from, 4) ? 4096 : ROOM_LARGEST;
    if (once_in(from, 30))
        made->limit = ONE_OF(from, bad);
    if (once_in(from, 10))
        made->budget = 1 + draw(from, 60);
    if (once_in(from, 60))
        made->budget = ONE_OF(from, bad_budgets);
    if (once_in(from, 10))
        made->room = draw(from, 80);
}

/* How many of limit, budget and room are asked with. Those that are what they
 * are where they are left out may be left out, from the last on. */
static uint32_t draw_words(source *from, const plan_case *made)
{
    uint32_t words = 3;
    if (made->room == ROOM_LARGEST && once_in(from, 2))
        words = 2;
    if (words == 2 && made->budget == IND_LARGEST_BUDGET && once_in(from, 2))
        words = 1;
    if (words == 1 && made->limit == 0 && once_in(from, 2))
        words = 0;
    return words;
}

void build_plan_case(uint64_t seed, plan_case *made)
{
    static const uint32_t limits[] = { 0, 0, 0, 8, 64, 160, 512 };
    source from = source_from(seed);
    uint32_t limit;
    make_file(&from, &made->file);
    limit = ONE_OF(&from, limits);
    make_plan(&from, &made->file, limit, &made->plan);
    draw_asked(&from, limit, made);
    made->words = draw_words(&from, made);
    made->flat = once_in(&from, 2);
}
