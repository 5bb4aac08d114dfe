/* Fixed listings: yard Y of 01 and seven other yards, what each is asked with,
 * and what is due. */
#include "listings.h"

#include <string.h>

#include "answer.h"
#include "batch.h"
#include "core/core.h"
#include "drawn.h"
#include "self.h"

/* ---- yards */

static yard drawn;

static void make_right_y(stored *file)
{
    make_y(file, Y_SECOND_END);
}

static void make_refused_y(stored *file)
{
    make_y(file, Y_FIRST_END + 1);
}

/* Two boundaries, 41 and 53, and nothing else: the smallest X.2. */
void make_two(stored *file)
{
    begin(&drawn, 1, 1);
    join(&drawn, 1, LINK, 2, LINK);
    lay_out(&drawn, NULL, file);
}

/* 41 is before turnout 65, whose reverse leg leads to 53 and whose normal leg
 * to turnout 89. Its legs are joined over so many joints, from 113 on: a walk
 * through them comes to 89 again. */
static void make_loop_of(uint32_t joints, stored *file)
{
    uint32_t first, second, at, port = NORMAL;
    begin(&drawn, 1, 1);
    first = put(&drawn, IND_TURNOUT);
    second = put(&drawn, IND_TURNOUT);
    join(&drawn, 1, LINK, first, FRONT);
    join(&drawn, first, NORMAL, second, FRONT);
    join(&drawn, first, REVERSE, 2, LINK);
    for (at = second; joints > 0; joints--) {
        uint32_t joint = put(&drawn, IND_JOINT);
        join(&drawn, at, port, joint, PREVIOUS);
        at = joint;
        port = NEXT;
    }
    join(&drawn, at, port, second, REVERSE);
    lay_out(&drawn, NULL, file);
}

void make_loop(stored *file)
{
    make_loop_of(2, file);
}

static void make_long_loop(stored *file)
{
    make_loop_of(20, file);
}

/* 41 is before turnout 65. Its normal leg leads to joint 113, where the way
 * ends; its reverse leg to turnout 89, which has no normal link and leads to
 * 53 by its reverse one. */
void make_dead_end(stored *file)
{
    uint32_t first, second, joint;
    begin(&drawn, 1, 1);
    first = put(&drawn, IND_TURNOUT);
    second = put(&drawn, IND_TURNOUT);
    joint = put(&drawn, IND_JOINT);
    join(&drawn, 1, LINK, first, FRONT);
    join(&drawn, first, NORMAL, joint, NEXT);
    join(&drawn, first, REVERSE, second, FRONT);
    join(&drawn, second, REVERSE, 2, LINK);
    lay_out(&drawn, NULL, file);
}

/* A double crossover: 47 and 59 are before turnouts 95 and 119, 71 and 83
 * before 143 and 167, and each leg of the first two is joined with a leg of
 * the others. */
void make_crossover(stored *file)
{
    uint32_t first;
    begin(&drawn, 2, 2);
    first = put_several(&drawn, IND_TURNOUT, 4);
    for (uint32_t i = 0; i < 4; i++)
        join(&drawn, 1 + i, LINK, first + i, FRONT);
    join(&drawn, first, NORMAL, first + 2, NORMAL);
    join(&drawn, first, REVERSE, first + 3, REVERSE);
    join(&drawn, first + 1, NORMAL, first + 3, NORMAL);
    join(&drawn, first + 1, REVERSE, first + 2, REVERSE);
    lay_out(&drawn, NULL, file);
}

/* 62 is before a tree of seven turnouts from 170 on, in which the legs of each
 * lead to two others, the last to ends that stand in no order. On the reverse
 * side of the first there are signal 338 and joint 357 more. */
void make_tree(stored *file)
{
    static const uint32_t ends[] = { 3, 1, 8, 2, 5, 7, 4, 6 };
    enum { TURNOUTS = 7, INNER = 3, ENDS = 8 };
    uint32_t first, signal, joint;
    begin(&drawn, 1, ENDS);
    first = put_several(&drawn, IND_TURNOUT, TURNOUTS);
    signal = put(&drawn, IND_SIGNAL);
    joint = put(&drawn, IND_JOINT);
    join(&drawn, 1, LINK, first, FRONT);
    for (uint32_t i = 0; i < INNER; i++) {
        join(&drawn, first + i, NORMAL, first + 2 * i + 1, FRONT);
        join(&drawn, first + i, REVERSE, first + 2 * i + 2, FRONT);
    }
    join(&drawn, first, REVERSE, signal, NEXT);
    join(&drawn, signal, PREVIOUS, joint, PREVIOUS);
    join(&drawn, joint, NEXT, first + 2, FRONT);
    for (uint32_t i = 0; i < ENDS; i++)
        join(&drawn, first + INNER + i / 2, i % 2 == 0 ? NORMAL : REVERSE,
             1 + ends[i], LINK);
    lay_out(&drawn, NULL, file);
}

/* 510 turnouts in a row from 56 on, an end after the last: a way of 512
 * objects by normal legs alone. Reverse legs lead to ends at every hundredth
 * turnout, and else to joints where the way ends, so that a choice is open at
 * each turnout of the way at once. */
void make_deep(stored *file)
{
    enum { TURNOUTS = 510, EVERY = 100, ENDS = 6 };
    uint32_t first, at = 1, port = LINK, ends = 1;
    begin(&drawn, 1, ENDS);
    first = put_several(&drawn, IND_TURNOUT, TURNOUTS);
    for (uint32_t i = 1; i <= TURNOUTS; i++) {
        uint32_t turnout = first + i - 1;
        join(&drawn, at, port, turnout, FRONT);
        if (i % EVERY == 0)
            join(&drawn, turnout, REVERSE, 1 + ++ends, LINK);
        else
            join(&drawn, turnout, REVERSE, put(&drawn, IND_JOINT), PREVIOUS);
        at = turnout;
        port = NORMAL;
    }
    join(&drawn, at, port, 2, LINK);
    lay_out(&drawn, NULL, file);
}

/* ---- listings */

/* What a yard is asked with, and what is due: the answer, the counts, and the
 * routes as they are printed; a null pointer where they are too long. */
typedef struct {
    void (*make)(stored *file);
    uint32_t numbers[NUMBERS];
    ind_answer answer;
    uint32_t routes;
    uint32_t words;
    uint32_t walks;
    const char *lines;
    const char *sentence;
} listing;

#define REFUSED(number, place) { number, place, 0 }, 0, 0, 0, ""
#define ANSWERED(routes, words, walks) { 0, 0, 0 }, routes, words, walks
#define OF_Y ANSWERED(2, 8, 4), "44 80 56\n44 80 68\n"
#define DEEP_WALKS 1022
#define DEEP_WORDS 2028

static const listing listings[] = {
    { make_right_y, { 44, 8, 65535, 8 }, OF_Y, "Y from 44" },
    { make_right_y, { 56, 8, 65535, 8 }, ANSWERED(1, 4, 3), "56 80 44\n",
      "Y from 56, by the normal leg" },
    { make_right_y, { 68, 8, 65535, 8 }, ANSWERED(1, 4, 3), "68 80 44\n",
      "Y from 68, by the reverse leg" },
    { make_right_y, { 44, 0, 65535, 65535 }, OF_Y, "limit 0" },
    { make_right_y, { 44, 512, 65535, 65535 }, OF_Y, "limit 512" },
    { make_right_y, { 44, 3, 65535, 65535 }, OF_Y, "limit 3" },
    { make_right_y, { 44, 2, 65535, 65535 }, ANSWERED(0, 0, 2), "",
      "limit 2: no route, 2 walks" },
    { make_right_y, { 44, 1, 65535, 65535 }, REFUSED(13, 0), "limit 1" },
    { make_right_y, { 44, 513, 65535, 65535 }, REFUSED(13, 0), "limit 513" },
    { make_right_y, { 44, 8, 4, 8 }, OF_Y, "budget 4" },
    { make_right_y, { 44, 8, 3, 8 }, REFUSED(14, 0), "budget 3" },
    { make_right_y, { 44, 8, 1, 8 }, REFUSED(14, 0), "budget 1" },
    { make_right_y, { 44, 8, 0, 8 }, REFUSED(13, 0), "budget 0" },
    { make_right_y, { 44, 8, 65536, 8 }, REFUSED(13, 0), "budget 65,536" },
    { make_right_y, { 44, 2, 2, 0 }, ANSWERED(0, 0, 2), "",
      "budget 2 by limit 2, and no room for no words" },
    { make_right_y, { 44, 2, 1, 0 }, REFUSED(14, 0), "budget 1 by limit 2" },
    { make_right_y, { 44, 8, 4, 9 }, OF_Y, "room 9" },
    { make_right_y, { 44, 8, 4, 7 }, REFUSED(15, 0), "room 7" },
    { make_right_y, { 44, 8, 4, 4 }, REFUSED(15, 0),
      "room 4, for the first route alone" },
    { make_right_y, { 44, 8, 4, 0 }, REFUSED(15, 0), "no room" },
    { make_right_y, { 44, 8, 3, 0 }, REFUSED(14, 0), "14 before 15" },
    { make_right_y, { 80, 8, 1, 0 }, REFUSED(13, 0), "from a turnout" },
    { make_right_y, { 45, 8, 4, 8 }, REFUSED(13, 0),
      "from inside a boundary" },
    { make_right_y, { 0, 8, 4, 8 }, REFUSED(13, 0), "from the header" },
    { make_right_y, { 104, 8, 4, 8 }, REFUSED(13, 0), "from End" },
    { make_right_y, { 65536 + 44, 8, 4, 8 }, REFUSED(13, 0),
      "from 65,536 more" },
    { make_refused_y, { 44, 8, 4, 8 }, REFUSED(8, 99), "a refused file" },
    { make_refused_y, { 80, 1, 0, 0 }, REFUSED(8, 99),
      "the file's fault before 13" },
    { make_two, { 41, 2, 2, 3 }, ANSWERED(1, 3, 2), "41 53\n",
      "a route of two objects" },
    { make_two, { 53, 0, 1, 3 }, REFUSED(14, 0),
      "two objects by budget 1" },
    { make_loop, { 41, 0, 8, 4 }, ANSWERED(1, 4, 8), "41 65 53\n",
      "a loop, left where it meets itself" },
    { make_loop, { 41, 0, 7, 4 }, REFUSED(14, 0), "the loop by budget 7" },
    { make_loop, { 53, 0, 65535, 4 }, ANSWERED(1, 4, 3), "53 65 41\n",
      "past the loop, by a leg" },
    { make_long_loop, { 41, 0, 44, 4 }, ANSWERED(1, 4, 44), "41 65 53\n",
      "a loop that is met 20 objects later" },
    { make_long_loop, { 41, 15, 28, 4 }, ANSWERED(1, 4, 28), "41 65 53\n",
      "a loop that is cut by limit 15" },
    { make_dead_end, { 41, 8, 5, 5 }, ANSWERED(1, 5, 5), "41 65 89 53\n",
      "a dead end is a walk, and link 0 is none" },
    { make_dead_end, { 41, 8, 4, 5 }, REFUSED(14, 0),
      "the dead end by budget 4" },
    { make_dead_end, { 41, 3, 4, 0 }, ANSWERED(0, 0, 4), "",
      "the dead end by limit 3: no route" },
    { make_dead_end, { 53, 8, 5, 5 }, ANSWERED(1, 5, 4), "53 89 65 41\n",
      "two turnouts entered at legs" },
    { make_crossover, { 47, 8, 6, 10 }, ANSWERED(2, 10, 6),
      "47 95 143 71\n47 95 167 83\n", "a crossover from 47" },
    { make_crossover, { 59, 8, 6, 10 }, ANSWERED(2, 10, 6),
      "59 119 167 83\n59 119 143 71\n", "a crossover from 59" },
    { make_crossover, { 71, 8, 6, 10 }, ANSWERED(2, 10, 6),
      "71 143 95 47\n71 143 119 59\n", "a crossover from 71" },
    { make_crossover, { 83, 8, 6, 9 }, REFUSED(15, 0),
      "a crossover from 83 by room 9" },
    { make_tree, { 62, 7, 18, 56 }, ANSWERED(8, 56, 18),
      "62 170 194 242 98\n62 170 194 242 74\n"
      "62 170 194 266 158\n62 170 194 266 86\n"
      "62 170 338 357 218 290 122\n62 170 338 357 218 290 146\n"
      "62 170 338 357 218 314 110\n62 170 338 357 218 314 134\n",
      "a tree, normal before reverse at each turnout" },
    { make_tree, { 62, 6, 14, 24 }, ANSWERED(4, 24, 14),
      "62 170 194 242 98\n62 170 194 242 74\n"
      "62 170 194 266 158\n62 170 194 266 86\n",
      "a tree by limit 6: the shorter ways" },
    { make_tree, { 62, 5, 12, 24 }, ANSWERED(4, 24, 12),
      "62 170 194 242 98\n62 170 194 242 74\n"
      "62 170 194 266 158\n62 170 194 266 86\n",
      "a tree by limit 5" },
    { make_tree, { 62, 4, 7, 0 }, ANSWERED(0, 0, 7), "",
      "a tree by limit 4: no route" },
    { make_tree, { 62, 7, 17, 56 }, REFUSED(14, 0), "a tree by budget 17" },
    { make_tree, { 62, 7, 18, 55 }, REFUSED(15, 0), "a tree by room 55" },
    { make_tree, { 134, 8, 7, 8 }, ANSWERED(1, 8, 7),
      "134 314 218 357 338 170 62\n", "a tree from its last end" },
    { make_deep, { 56, 512, DEEP_WALKS, DEEP_WORDS },
      ANSWERED(6, DEEP_WORDS, DEEP_WALKS), NULL,
      "a choice open at each of 510 turnouts, by limit 512" },
    { make_deep, { 56, 511, 65535, 65535 }, ANSWERED(5, 1515, 1020), NULL,
      "the same by limit 511" },
    { make_deep, { 56, 512, DEEP_WALKS - 1, DEEP_WORDS }, REFUSED(14, 0),
      "the same by a walk too few" },
    { make_deep, { 56, 512, DEEP_WALKS, DEEP_WORDS - 1 }, REFUSED(15, 0),
      "the same by a word too few" },
    { make_deep, { 56, 0, 65535, 65535 }, ANSWERED(1, 103, 318), NULL,
      "the same by limit 0" }
};

enum { LISTINGS = sizeof listings / sizeof *listings };

static void build_listing(const listing *of, asked *ask)
{
    ask->question = ASK_ROUTES2;
    memcpy(ask->numbers, of->numbers, sizeof ask->numbers);
    of->make(&ask->files[0]);
    ask->files[1].length = 0;
}

void write_listings(FILE *output)
{
    static asked ask;
    for (int i = 0; i < LISTINGS; i++) {
        build_listing(&listings[i], &ask);
        write_case(output, &ask);
    }
}

/* ---- what is due */

/* The words after a list, and all of a refused one, stay as they are. */
static int words_kept(const uint16_t *words, uint32_t used)
{
    for (uint32_t i = used; i < ROOM_LARGEST; i++)
        if (words[i] != UNTOUCHED)
            return 0;
    return 1;
}

static int counts_due(const listing *of, const ind_routes *found)
{
    return found->answer.number == of->answer.number
        && found->answer.place == of->answer.place
        && found->routes == of->routes && found->words == of->words
        && found->walks == of->walks;
}

static int lines_due(const listing *of, const uint16_t *words)
{
    FILE *kept = tmpfile();
    if (kept == NULL)
        return 0;
    print_route_lines(kept, words, of->routes);
    return printed(kept, of->lines);
}

/* What a lister has found, and the words that it left, are what is due. */
static int listing_due(const listing *of, const ind_routes *found,
                       const uint16_t *words)
{
    return counts_due(of, found) && words_kept(words, of->words)
        && (of->lines == NULL || lines_due(of, words));
}

static int listing_right(const listing *of, const stored *file)
{
    static ind_walks walks;
    static uint16_t words[ROOM_LARGEST], others[ROOM_LARGEST];
    const uint32_t *n = of->numbers;
    ind_routes found, flat;
    for (uint32_t i = 0; i < ROOM_LARGEST; i++)
        words[i] = others[i] = UNTOUCHED;
    found = ind_routes_from(file->bytes, file->length, n[0], n[1], n[2],
                            words, n[3], &walks);
    flat = ind_routes_flat(file->bytes, file->length, n[0], n[1], n[2],
                           others, n[3]);
    return listing_due(of, &found, words) && listing_due(of, &flat, others)
        && memcmp(words, others, sizeof words) == 0;
}

void fixed_listing_examples(void)
{
    static asked ask;
    for (int i = 0; i < LISTINGS; i++) {
        build_listing(&listings[i], &ask);
        ensure(listing_right(&listings[i], &ask.files[0]),
               listings[i].sentence);
    }
}
