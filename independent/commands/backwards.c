/* 02's ticket 13: a route from A to B is listed exactly when its reverse is
 * listed from B, if neither listing with the same limit is refused. Judged by
 * what a caller sees: the start and the limit of each case, and the answer as
 * it was printed. Nothing is listed here, and no verdict given. */
#include "backwards.h"

#include <stdlib.h>
#include <string.h>

#include "batch.h"
#include "commands.h"
#include "core/core.h"

enum {
    /* So many routes that are not read back are printed; all are counted. */
    SHOWN_MOST = 10,
    ROUTES_MOST = IND_LARGEST_BUDGET,
    WORDS_MOST = IND_LARGEST_BUDGET * (1 + IND_LARGEST_LIMIT),
    /* How many lines stand before the one with the words. */
    BEFORE_WORDS = 2
};

/* A listing of the yard under way: where it starts, the number of its answer,
 * and its routes: how many, and where in the yard's words they begin. */
typedef struct {
    uint32_t start;
    uint32_t number;
    uint32_t routes;
    size_t words;
} listing;

/* A route that an answer has, from its count word on, or the reverse of it. */
typedef struct {
    uint32_t listing;
    const uint16_t *words;
    int reversed;
} route;

/* What has been counted. A pair is of two listings of one yard, in order. */
typedef struct {
    unsigned long yards;
    unsigned long listings[IND_NUMBERS];
    unsigned long pairs_compared;
    unsigned long pairs_with_routes;
    unsigned long pairs_unsaid;
    unsigned long read_back;
    unsigned long not_read_back;
    unsigned long unsaid;
} counts;

/* The yard under way: what its cases have in common, the first of them, its
 * listings, the words of all their routes, and the routes in order. */
typedef struct {
    stored file;
    uint32_t limit;
    unsigned long first_case;
    uint32_t listings_count;
    size_t listings_room;
    listing *listings;
    size_t words_count;
    size_t words_room;
    uint16_t *words;
    size_t routes_count;
    size_t routes_room;
    route *routes;
} yard_read;

/* A printed answer, without the empty line after it. */
typedef struct {
    size_t length;
    size_t room;
    char *bytes;
} text;

/* The check under way. */
typedef struct {
    FILE *output;
    FILE *said;
    unsigned long cases;
    yard_read yard;
    text answer;
    counts found;
} check;

/* Room for so many elements of a block that grows. */
static void *grown(void *block, size_t *room, size_t needed, size_t size)
{
    if (needed <= *room)
        return block;
    *room = 2 * needed;
    block = realloc(block, *room * size);
    if (block == NULL) {
        fputs("independent: no memory for a yard\n", stderr);
        exit(RUN_UNJUDGED);
    }
    return block;
}

/* ---- a printed answer */

/* What is left of a text, and how many lines of it have been read. */
typedef struct {
    const char *at;
    const char *end;
    unsigned long lines;
} cursor;

static int take(cursor *of, char byte)
{
    if (of->at == of->end || *of->at != byte)
        return 0;
    of->at++;
    of->lines += byte == '\n';
    return 1;
}

static int take_word(cursor *of, const char *word)
{
    while (*word != '\0')
        if (!take(of, *word++))
            return 0;
    return 1;
}

static int at_digit(const cursor *of)
{
    return of->at < of->end && *of->at >= '0' && *of->at <= '9';
}

/* A number up to the largest that there may be: decimal digits alone, and no
 * zero before others. */
static int take_number(cursor *of, uint32_t most, uint32_t *number)
{
    const char *first = of->at;
    uint64_t value = 0;
    while (at_digit(of) && value <= most)
        value = 10 * value + (uint64_t)(*of->at++ - '0');
    *number = (uint32_t)value;
    return of->at > first && value <= most && !at_digit(of)
        && (*first != '0' || of->at == first + 1);
}

/* A line of a name and a number. */
static int take_line(cursor *of, const char *name, uint32_t most,
                     uint32_t *number)
{
    return take_word(of, name) && take(of, ' ')
        && take_number(of, most, number) && take(of, '\n');
}

/* Whether routes of an X.2 can be answered so: the file's own fault with its
 * place, and all else at place 0. */
static int can_be_answered(uint32_t number, uint32_t place)
{
    if (number >= IND_LENGTH && number <= IND_LINK_RETURN)
        return 1;
    return place == 0
        && (number == IND_ACCEPTED || number == IND_OUT_OF_RANGE
            || number == IND_STEPS || number == IND_ROOM);
}

/* The line `answer NUMBER PLACE`. */
static int take_answer(cursor *of, uint32_t *number)
{
    uint32_t place;
    return take_word(of, "answer ")
        && take_number(of, IND_NUMBERS - 1, number) && take(of, ' ')
        && take_number(of, IND_LARGEST_FILE, &place)
        && can_be_answered(*number, place) && take(of, '\n');
}

static void put_word(yard_read *yard, uint32_t word)
{
    yard->words = grown(yard->words, &yard->words_room, yard->words_count + 1,
                        sizeof *yard->words);
    yard->words[yard->words_count++] = (uint16_t)word;
}

/* A line of two or more offsets: the words of a route. */
static int take_route(cursor *of, yard_read *yard)
{
    size_t count_word = yard->words_count;
    uint32_t objects = 0, offset;
    put_word(yard, 0);
    do {
        if (!take_number(of, IND_LARGEST_OF_TWO, &offset)
            || ++objects > IND_LARGEST_LIMIT)
            return 0;
        put_word(yard, offset);
    } while (take(of, ' '));
    yard->words[count_word] = (uint16_t)objects;
    return objects >= IND_LEAST_LIMIT && take(of, '\n');
}

/* The routes that the answer says it has, in as many words as it says. */
static int take_routes(cursor *of, yard_read *yard, listing *to)
{
    uint32_t words, walks;
    if (!take_line(of, "routes", ROUTES_MOST, &to->routes)
        || !take_line(of, "words", WORDS_MOST, &words)
        || !take_line(of, "walks", IND_LARGEST_BUDGET, &walks))
        return 0;
    for (uint32_t i = 0; i < to->routes; i++)
        if (!take_route(of, yard))
            return 0;
    if (yard->words_count - to->words == words)
        return 1;
    of->lines = BEFORE_WORDS;
    return 0;
}

/* The listing that a printed answer has. 0 where it cannot be read; the cursor
 * then says how many of its lines are before the one that is wrong. */
static int take_listing(cursor *of, yard_read *yard, listing *to)
{
    to->routes = 0;
    to->words = yard->words_count;
    return take_answer(of, &to->number)
        && (to->number != IND_ACCEPTED || take_routes(of, yard, to))
        && of->at == of->end;
}

/* ---- routes, and their reverses, in order */

static uint32_t objects_of(const route *of)
{
    return of->words[0];
}

static uint32_t object_at(const route *of, uint32_t index)
{
    return of->words[of->reversed ? objects_of(of) - index : 1 + index];
}

static uint32_t last_of(const route *of)
{
    return object_at(of, objects_of(of) - 1);
}

static int order_of(uint32_t one, uint32_t other)
{
    return one < other ? -1 : one > other;
}

/* By listing, and in that by the last object, so that the routes from one
 * boundary to another stand together. */
static int by_words(const void *left, const void *right)
{
    const route *one = left, *other = right;
    int order = order_of(one->listing, other->listing);
    if (order == 0)
        order = order_of(last_of(one), last_of(other));
    if (order == 0)
        order = order_of(objects_of(one), objects_of(other));
    for (uint32_t i = 0; order == 0 && i < objects_of(one); i++)
        order = order_of(object_at(one, i), object_at(other, i));
    return order;
}

/* The routes of one listing, as they stand in the yard's words. */
static void gather_routes(yard_read *yard, uint32_t which)
{
    const listing *of = &yard->listings[which];
    size_t at = of->words;
    yard->routes = grown(yard->routes, &yard->routes_room,
                         yard->routes_count + of->routes,
                         sizeof *yard->routes);
    for (uint32_t i = 0; i < of->routes; i++) {
        const uint16_t *words = &yard->words[at];
        yard->routes[yard->routes_count++] = (route){ which, words, 0 };
        at += 1u + words[0];
    }
}

/* All routes of the yard's answers, in order. */
static void order_routes(yard_read *yard)
{
    yard->routes_count = 0;
    for (uint32_t i = 0; i < yard->listings_count; i++)
        gather_routes(yard, i);
    if (yard->routes_count > 0)
        qsort(yard->routes, yard->routes_count, sizeof *yard->routes,
              by_words);
}

/* How many routes stand before one: with those that are equal to it where
 * bound is 1, without them where it is 0. */
static size_t routes_before(const yard_read *yard, const route *sought,
                            int bound)
{
    size_t low = 0, high = yard->routes_count;
    while (low < high) {
        size_t middle = low + (high - low) / 2;
        if (by_words(&yard->routes[middle], sought) < bound)
            low = middle + 1;
        else
            high = middle;
    }
    return low;
}

/* How often a route stands in the listing that it names. */
static unsigned long times_listed(const yard_read *yard, const route *sought)
{
    return (unsigned long)(routes_before(yard, sought, 1)
                           - routes_before(yard, sought, 0));
}

/* ---- a yard */

static int answered(const yard_read *yard, uint32_t which)
{
    return yard->listings[which].number == IND_ACCEPTED;
}

/* `yard 0, case 2 from 68: 68 80 44: ` of a route that is not read back; 0
 * where enough are shown. */
static int begin_shown(check *of, const route *wrong)
{
    const yard_read *yard = &of->yard;
    if (++of->found.not_read_back > SHOWN_MOST)
        return 0;
    fprintf(of->output, "yard %lu, case %lu from %lu:", of->found.yards,
            yard->first_case + wrong->listing,
            (unsigned long)yard->listings[wrong->listing].start);
    for (uint32_t i = 0; i < objects_of(wrong); i++)
        fprintf(of->output, " %lu", (unsigned long)object_at(wrong, i));
    fputs(": ", of->output);
    return 1;
}

static void show_unread(check *of, const route *wrong, uint32_t other,
                        unsigned long times)
{
    const yard_read *yard = &of->yard;
    if (begin_shown(of, wrong))
        fprintf(of->output,
                "its reverse is listed %lu times in case %lu from %lu\n",
                times, yard->first_case + other,
                (unsigned long)yard->listings[other].start);
}

static void show_astray(check *of, const route *wrong, const char *why)
{
    if (begin_shown(of, wrong))
        fprintf(of->output, "%s\n", why);
}

/* A route and a listing from where it ends: it stands there once, reversed; or
 * the listing is refused, and nothing is said. */
static void read_back(check *of, const route *read, uint32_t other)
{
    route back = { other, read->words, 1 };
    unsigned long times;
    if (!answered(&of->yard, other)) {
        of->found.unsaid++;
        return;
    }
    times = times_listed(&of->yard, &back);
    if (times == 1)
        of->found.read_back++;
    else
        show_unread(of, read, other, times);
}

/* Whether a route is the first from its start to where it ends. */
static int first_of_pair(const yard_read *yard, const route *read)
{
    return read == yard->routes || read[-1].listing != read->listing
        || last_of(read - 1) != last_of(read);
}

/* A route and all listings from where it ends. There is one, since every
 * boundary has to be asked. */
static void judge_route(check *of, const route *read)
{
    const yard_read *yard = &of->yard;
    int met = 0, first = first_of_pair(yard, read);
    int starts =
        object_at(read, 0) == yard->listings[read->listing].start;
    for (uint32_t i = 0; i < yard->listings_count; i++) {
        if (yard->listings[i].start != last_of(read))
            continue;
        met = 1;
        if (first && i != read->listing && answered(yard, i))
            of->found.pairs_with_routes++;
        if (starts)
            read_back(of, read, i);
    }
    if (!starts)
        show_astray(of, read, "it does not start there");
    else if (!met)
        show_astray(of, read, "no case of the yard starts where it ends");
}

/* A listing with each of the others: compared, or nothing is said. */
static void count_pairs(check *of, uint32_t one)
{
    const yard_read *yard = &of->yard;
    for (uint32_t i = 0; i < yard->listings_count; i++) {
        if (i == one)
            continue;
        if (answered(yard, one) && answered(yard, i))
            of->found.pairs_compared++;
        else
            of->found.pairs_unsaid++;
    }
}

/* The yard under way, once all its answers are read. */
static void judge_yard(check *of)
{
    yard_read *yard = &of->yard;
    for (uint32_t i = 0; i < yard->listings_count; i++) {
        of->found.listings[yard->listings[i].number]++;
        count_pairs(of, i);
    }
    order_routes(yard);
    for (size_t i = 0; i < yard->routes_count; i++)
        judge_route(of, &yard->routes[i]);
    of->found.yards++;
}

/* Whether a case is of the yard under way. Of a file that is too long the
 * length is all that is kept. */
static int same_yard(const yard_read *yard, const asked *ask)
{
    const stored *file = &ask->files[0];
    return yard->limit == ask->numbers[1]
        && yard->file.length == file->length
        && (file->length > IND_LARGEST_FILE
            || memcmp(yard->file.bytes, file->bytes, file->length) == 0);
}

static void begin_yard(check *of, const asked *ask)
{
    yard_read *yard = &of->yard;
    memcpy(&yard->file, &ask->files[0], sizeof yard->file);
    yard->limit = ask->numbers[1];
    yard->first_case = of->cases;
    yard->listings_count = 0;
    yard->words_count = 0;
}

/* ---- cases and answers */

/* Says why nothing can be judged. */
static int unjudged(const check *of, const char *why)
{
    fprintf(of->said, "independent: case %lu: %s\n", of->cases, why);
    return 0;
}

/* The next answer, up to the empty line after it. */
static int read_answer(check *of, FILE *answers)
{
    text *answer = &of->answer;
    int byte, before = '\n';
    answer->length = 0;
    answer->bytes = grown(answer->bytes, &answer->room, 1, 1);
    while ((byte = getc(answers)) != EOF) {
        if (byte == '\n' && before == '\n')
            return 1;
        answer->bytes = grown(answer->bytes, &answer->room,
                              answer->length + 1, 1);
        answer->bytes[answer->length++] = (char)byte;
        before = byte;
    }
    if (ferror(answers))
        return unjudged(of, "the answers cannot be read");
    return unjudged(of, answer->length == 0 ? "there is no answer to it"
                                            : "its answer has no end");
}

/* The listing that a case was answered with. */
static int take_case(check *of, const asked *ask, FILE *answers)
{
    yard_read *yard = &of->yard;
    listing *to;
    cursor at;
    if (!asks_routes(ask->question))
        return unjudged(of, "it does not ask for routes");
    if (!read_answer(of, answers))
        return 0;
    yard->listings =
        grown(yard->listings, &yard->listings_room,
              yard->listings_count + 1u, sizeof *yard->listings);
    to = &yard->listings[yard->listings_count++];
    to->start = ask->numbers[0];
    at = (cursor){ of->answer.bytes, of->answer.bytes + of->answer.length, 0 };
    if (take_listing(&at, yard, to))
        return 1;
    fprintf(of->said,
            "independent: case %lu: line %lu of its answer cannot be read\n",
            of->cases, at.lines + 1);
    return 0;
}

/* All cases with their answers, to the end of both. */
static int go_through(check *of, FILE *cases, FILE *answers)
{
    static asked ask;
    reading got;
    while ((got = read_case(cases, &ask)) == READ_WHOLE) {
        if (of->cases == 0) {
            begin_yard(of, &ask);
        } else if (!same_yard(&of->yard, &ask)) {
            judge_yard(of);
            begin_yard(of, &ask);
        }
        if (!take_case(of, &ask, answers))
            return 0;
        of->cases++;
    }
    if (ferror(cases))
        return unjudged(of, "the cases cannot be read");
    if (got == READ_CUT_OFF)
        return unjudged(of, "the cases end inside it");
    if (got == READ_TOO_MANY_LIES)
        return unjudged(of, "it has more lies than bytes");
    if (got == READ_UNKNOWN_QUESTION)
        return unjudged(of, "it asks an unknown question");
    if (of->cases == 0)
        return unjudged(of, "there are no cases");
    if (getc(answers) != EOF)
        return unjudged(of, "there is an answer, and no such case");
    judge_yard(of);
    return 1;
}

static void print_counts(FILE *output, const counts *found)
{
    fprintf(output, "yards      %lu\nlistings  ", found->yards);
    for (int i = 0; i < IND_NUMBERS; i++)
        if (found->listings[i] > 0)
            fprintf(output, " %d:%lu", i, found->listings[i]);
    fprintf(output, "\npairs      routes:%lu none:%lu unsaid:%lu\n",
            found->pairs_with_routes,
            found->pairs_compared - found->pairs_with_routes,
            found->pairs_unsaid);
    fprintf(output, "routes     read_back:%lu not:%lu unsaid:%lu\n",
            found->read_back, found->not_read_back, found->unsaid);
    fprintf(output, "backwards: %lu routes read back, %lu not\n",
            found->read_back, found->not_read_back);
}

static void free_check(check *of)
{
    free(of->yard.listings);
    free(of->yard.words);
    free(of->yard.routes);
    free(of->answer.bytes);
}

int check_backwards(FILE *cases, FILE *answers, FILE *output, FILE *said)
{
    static check of;
    int judged;
    memset(&of, 0, sizeof of);
    of.output = output;
    of.said = said;
    judged = go_through(&of, cases, answers);
    free_check(&of);
    if (!judged)
        return RUN_UNJUDGED;
    print_counts(output, &of.found);
    return of.found.not_read_back == 0 ? RUN_WELL : RUN_BAD;
}

/* ---- the command */

int command_backwards(int count, char **words)
{
    FILE *files[2] = { NULL, NULL };
    int status = RUN_UNJUDGED;
    if (count != 2) {
        fputs("independent: backwards takes CASES ANSWERS\n", stderr);
        return RUN_MISUSED;
    }
    for (int i = 0; i < 2; i++)
        files[i] = fopen(words[i], "rb");
    if (files[0] == NULL || files[1] == NULL)
        fprintf(stderr, "independent: %s cannot be read\n",
                files[0] == NULL ? words[0] : words[1]);
    else
        status = check_backwards(files[0], files[1], stdout, stderr);
    for (int i = 0; i < 2; i++)
        if (files[i] != NULL)
            fclose(files[i]);
    return status;
}
