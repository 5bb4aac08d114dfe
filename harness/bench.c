/* Speed: the library beside the independent core, compiled by this program's
 * compiler and by clang, and beside a plain C reader, all in this program.
 * For each row the best of many short rounds, in which the sides take turns,
 * is printed with the ratios, as a table in Markdown; what counts is the
 * ratios alone.
 *
 *   bench                    all rows, and how both route engines compare
 *   bench walks              how both route engines compare
 *   bench rows               the rows' numbers and the sides of each
 *   bench ROW SIDE TIMES     one side of a row, so many times, and no clock:
 *                            for a tool that counts instructions */
#define _GNU_SOURCE
#include <stdio.h>
#include <stdlib.h>
#include <string.h>
#include <time.h>

#include "generator/asked.h"
#include "plain.h"
#include "plain_cases.h"
#include "sides.h"
#include "sums.h"
#include "yard.h"

enum {
    /* Short rounds, so that some are not broken off by other programs. */
    ROUNDS = 300,
    ROUND_NANOSECONDS = 250000,
    /* Files of at most so many bytes; the first so that two lines of the
     * realistic yard fit. */
    ABOUT_1_KB = 1088,
    ABOUT_8_KB = 8192,
    LARGEST = 65535,
    DIAMONDS = 13,
    /* Generated cases that the plain reader has to read as the core does. */
    PLAIN_SEED = 8,
    PLAIN_CASES = 800,
    /* More than a tool that counts is asked for. */
    TIMES_MOST = 1000000,
    /* The exit status of a wrong command line. */
    MISUSED = 2
};

enum {
    LIBRARY,
    CORE,
    CLANG_CORE,
    PLAIN,
    SIDES_MOST
};

/* What is measured: files, and each side's answer to them, if it has one. */
typedef struct {
    const char *name;
    void (*make)(uint32_t bytes, stored *files);
    uint32_t bytes;
    side sides[SIDES_MOST];
} row;

static stored files[FILES];

/* ---- the library */

static uint64_t library_checksum(const stored *file)
{
    return yard_checksum(file->bytes, file->length);
}

static uint64_t library_x1(const stored *file)
{
    return yard_x1(file->bytes, file->length);
}

static uint64_t library_x2(const stored *file)
{
    return yard_x2(file->bytes, file->length);
}

static uint64_t library_pair(const stored *of)
{
    return yard_pair(of[0].bytes, of[0].length, of[1].bytes, of[1].length);
}

static uint64_t library_track(const stored *file)
{
    uint8_t out[YARD_TRACK_SIZE];
    return yard_track(file->bytes, file->length, asked_track(file), out,
                      sizeof out);
}

static uint64_t library_point(const stored *file)
{
    uint8_t out[YARD_POINT_SIZE];
    return yard_point(file->bytes, file->length, asked_track(file),
                      asked_point(file), out, sizeof out);
}

static uint64_t library_coordinate(const stored *file)
{
    uint8_t out[YARD_COORDINATE_SIZE];
    return yard_coordinate(file->bytes, file->length, ASKED_NUMBER,
                           ASKED_POSITION, out, sizeof out);
}

static uint64_t library_record(const stored *file)
{
    uint8_t out[YARD_RECORD_SIZE];
    return yard_record(file->bytes, file->length, asked_record(file), out,
                       sizeof out);
}

static uint64_t library_header1(const stored *file)
{
    uint8_t out[YARD_HEADER1_SIZE];
    return yard_header1(file->bytes, file->length, out, sizeof out);
}

static uint64_t library_header2(const stored *file)
{
    uint8_t out[YARD_HEADER2_SIZE];
    return yard_header2(file->bytes, file->length, out, sizeof out);
}

/* The counts and the list of the last call that lists routes. */
static uint8_t counts[YARD_ROUTES_SIZE], words_of_routes[2 * ROUTE_WORDS];

static uint64_t library_routes(const stored *file)
{
    return yard_routes(file->bytes, file->length, asked_boundary(file),
                       ASKED_LIMIT, ASKED_BUDGET, counts, sizeof counts,
                       words_of_routes, sizeof words_of_routes);
}

static uint64_t library_routes_flat(const stored *file)
{
    return yard_routes_flat(file->bytes, file->length, asked_boundary(file),
                            ASKED_LIMIT, ASKED_BUDGET, counts, sizeof counts,
                            words_of_routes, sizeof words_of_routes);
}

static uint64_t library_ahead(const stored *of)
{
    uint8_t out[YARD_AHEAD_SIZE];
    return YARD_NUMBER(yard_ahead(of[0].bytes, of[0].length, of[1].bytes,
                                  of[1].length, asked_boundary(&of[1]),
                                  ASKED_LINK, asked_lies, sizeof asked_lies,
                                  out, sizeof out));
}

/* ---- the core: one function for each compiler and question */

#define BY_OWN(question)                                                     \
    static uint64_t own_##question(const stored *of)                         \
    {                                                                        \
        return own_core.question(of);                                        \
    }
#ifdef WITH_CLANG
#define BY_CLANG(question)                                                   \
    static uint64_t clang_##question(const stored *of)                       \
    {                                                                        \
        return clang_core.question(of);                                      \
    }
#define OF_CLANG(question) clang_##question
#else
#define BY_CLANG(question)
#define OF_CLANG(question) NULL
#endif
#define OF_CORE(question) BY_OWN(question) BY_CLANG(question)

OF_CORE(checksum)
OF_CORE(x1)
OF_CORE(x2)
OF_CORE(pair)
OF_CORE(track)
OF_CORE(point)
OF_CORE(coordinate)
OF_CORE(record)
OF_CORE(header1)
OF_CORE(header2)
OF_CORE(routes)
OF_CORE(routes_flat)
OF_CORE(ahead)

/* ---- the plain reader: 0 is accepted, as with the others */

static uint64_t plain_reads_x1(const stored *file)
{
    return !plain_x1(file->bytes, file->length);
}

static uint64_t plain_reads_x2(const stored *file)
{
    return !plain_x2(file->bytes, file->length);
}

static uint64_t plain_reads_pair(const stored *of)
{
    return !plain_pair(of[0].bytes, of[0].length, of[1].bytes, of[1].length);
}

static uint64_t plain_reads_coordinate(const stored *file)
{
    int32_t latitude, longitude;
    return !plain_coordinate(file->bytes, file->length, ASKED_NUMBER,
                             ASKED_POSITION, &latitude, &longitude);
}

static uint64_t one_table(const stored *file)
{
    return sum_by_table(file->bytes, file->length);
}

static uint64_t eight_tables(const stored *file)
{
    return sum_by_eight(file->bytes, file->length);
}

static uint64_t sixteen_tables(const stored *file)
{
    return sum_by_sixteen(file->bytes, file->length);
}

/* ---- the rows */

#define SIDES_OF(question, plain)                                            \
    { library_##question, own_##question, OF_CLANG(question), plain }
#define ROW(name, make, bytes, question, plain)                              \
    { name, make, bytes, SIDES_OF(question, plain) }
#define TWO_SIZES(name, make, question, plain)                               \
    ROW(name, make, ABOUT_8_KB, question, plain),                            \
    ROW(name, make, LARGEST, question, plain)
#define THREE_SIZES(name, make, question, plain)                             \
    ROW(name, make, ABOUT_1_KB, question, plain),                            \
    TWO_SIZES(name, make, question, plain)

static const row rows[] = {
    THREE_SIZES("X.1 verdict, realistic", realistic_geography, x1,
                plain_reads_x1),
    THREE_SIZES("X.1 verdict, points alone", worst_geography, x1,
                plain_reads_x1),
    THREE_SIZES("X.1 verdict, version 2, realistic", realistic_heights, x1,
                plain_reads_x1),
    THREE_SIZES("X.1 verdict, version 2, points alone", worst_heights, x1,
                plain_reads_x1),
    THREE_SIZES("X.2 verdict, realistic", realistic_application, x2,
                plain_reads_x2),
    THREE_SIZES("X.2 verdict, balises alone", worst_application, x2,
                plain_reads_x2),
    ROW("pair, realistic", realistic_station, ABOUT_1_KB, pair,
        plain_reads_pair),
    ROW("pair, realistic", realistic_station, ABOUT_8_KB, pair,
        plain_reads_pair),
    ROW("pair, 255 tracks", largest_station, LARGEST, pair,
        plain_reads_pair),
    THREE_SIZES("header of an X.1", realistic_geography, header1, NULL),
    THREE_SIZES("header of an X.2", realistic_application, header2, NULL),
    TWO_SIZES("track", realistic_geography, track, NULL),
    TWO_SIZES("point", realistic_geography, point, NULL),
    THREE_SIZES("coordinate", realistic_geography, coordinate,
                plain_reads_coordinate),
    THREE_SIZES("coordinate, version 2", realistic_heights,
                coordinate, plain_reads_coordinate),
    TWO_SIZES("record", realistic_application, record, NULL),
    ROW("routes, 40957 walks", diamonds, DIAMONDS, routes, NULL),
    ROW("routes, 40957 walks, second engine", diamonds, DIAMONDS,
        routes_flat, NULL),
    ROW("ahead, 12 objects", realistic_station, ABOUT_1_KB, ahead, NULL),
    ROW("ahead, 12 objects", realistic_station, ABOUT_8_KB, ahead, NULL),
    ROW("ahead, 12 objects, 255 tracks", largest_station, LARGEST, ahead,
        NULL),
    ROW("ahead, 64 objects", far_station, ABOUT_8_KB, ahead, NULL),
    ROW("checksum, plain C by eight tables", worst_application, LARGEST,
        checksum, eight_tables),
    { "checksum, plain C by one table", worst_application, LARGEST,
      { library_checksum, NULL, NULL, one_table } },
    { "checksum, plain C by sixteen tables", worst_application, LARGEST,
      { library_checksum, NULL, NULL, sixteen_tables } },
};

enum { ROWS = sizeof rows / sizeof *rows };

static const char *side_name(int which)
{
    static char name[20];
    if (which != CORE && which != CLANG_CORE)
        return which == LIBRARY ? "library" : "plain C";
    sprintf(name, "core %s", which == CORE ? own_core.compiler : "clang");
    return name;
}

/* A side that some row has. */
static int taking_part(int which)
{
    return rows[0].sides[which] != NULL;
}

static void make_files(const row *of)
{
    files[1].length = 0;
    of->make(of->bytes, files);
}

static uint32_t bytes_made(void)
{
    return files[0].length + files[1].length;
}

/* ---- the clock */

static volatile uint64_t kept;

static double nanoseconds(void)
{
    struct timespec at;
    clock_gettime(CLOCK_MONOTONIC, &at);
    return (double)at.tv_sec * 1e9 + (double)at.tv_nsec;
}

/* One side so many times: nanoseconds for each. */
static double timed(side of, uint32_t times)
{
    double from = nanoseconds();
    for (uint32_t i = 0; i < times; i++)
        kept += of(files);
    return (nanoseconds() - from) / times;
}

/* Every verdict and question is answered; sums are equal. */
static int agree(const row *of)
{
    uint64_t due = of->sides[LIBRARY] == library_checksum
        ? sum_by_table(files->bytes, files->length)
        : YARD_ANSWERED;
    for (int i = 0; i < SIDES_MOST; i++)
        if (of->sides[i] != NULL && of->sides[i](files) != due) {
            fprintf(stderr, "bench: %s, %lu bytes: the %s differs\n",
                    of->name, (unsigned long)bytes_made(), side_name(i));
            return 0;
        }
    return 1;
}

static void measure(const row *of, double best[SIDES_MOST])
{
    uint32_t times =
        1 + (uint32_t)(ROUND_NANOSECONDS / timed(of->sides[LIBRARY], 3));
    for (int round = 0; round < ROUNDS; round++)
        for (int i = 0; i < SIDES_MOST; i++) {
            double took = of->sides[i] == NULL ? 0
                                               : timed(of->sides[i], times);
            if (round == 0 || took < best[i])
                best[i] = took;
        }
}

/* ---- the table */

/* A whole number with a comma before each three digits. */
static void print_number(double value)
{
    char digits[32];
    int count = sprintf(digits, "%.0f", value);
    for (int i = 0; i < count; i++) {
        if (i > 0 && (count - i) % 3 == 0)
            putchar(',');
        putchar(digits[i]);
    }
}

static void print_head(void)
{
    printf("| What | Bytes | Library ns |");
    if (taking_part(CORE))
        printf(" Core %s ns | Library / core |", own_core.compiler);
    if (taking_part(CLANG_CORE))
        printf(" Core clang ns | Library / clang |");
    printf(" Plain C ns | Library / plain |\n|---|--:|--:|");
    for (int i = CORE; i < SIDES_MOST; i++)
        if (taking_part(i))
            printf("--:|--:|");
    putchar('\n');
}

/* A row's times and, of each side, how many times its own the library's is. */
static void print_row(const row *of, const double best[SIDES_MOST])
{
    printf("| %s | ", of->name);
    print_number(bytes_made());
    printf(" | ");
    print_number(best[LIBRARY]);
    printf(" |");
    for (int i = CORE; i < SIDES_MOST; i++) {
        if (!taking_part(i))
            continue;
        if (of->sides[i] == NULL) {
            printf(" | |");
            continue;
        }
        putchar(' ');
        print_number(best[i]);
        printf(" | %.2f |", best[LIBRARY] / best[i]);
    }
    putchar('\n');
    fflush(stdout);
}

/* The library's cost of a byte of balises alone at 64 KB, next to 8 KB. */
static void print_growth(const double per_byte[ROWS])
{
    for (int i = 1; i < ROWS; i++)
        if (rows[i].make == worst_application && rows[i].bytes == LARGEST
            && rows[i].sides[LIBRARY] == library_x2)
            printf("\n%s: a byte at 64 KB costs the library %.2f times one "
                   "at 8 KB.\n",
                   rows[i].name, per_byte[i] / per_byte[i - 1]);
}

/* Both route engines of the library, as the sides of one row, so that they
 * take turns: the walks of each in a second, and what part of the first's the
 * second's are. */
static int measure_walks(void)
{
    enum { FIRST, SECOND };
    static const row engines = { "routes of both engines", diamonds, DIAMONDS,
                                 { library_routes, library_routes_flat } };
    double best[SIDES_MOST] = { 0 }, walks;
    make_files(&engines);
    measure(&engines, best);
    walks = yard_unsigned(counts, YARD_ROUTES_WALKS);
    printf("\nWalks per second: ");
    print_number(walks / best[FIRST] * 1e9);
    printf(" by yard_routes, ");
    print_number(walks / best[SECOND] * 1e9);
    printf(" by yard_routes_flat; the second's are %.2f of the first's.\n",
           best[FIRST] / best[SECOND]);
    return 0;
}

static int measure_all(void)
{
    double per_byte[ROWS] = { 0 };
    print_head();
    for (int i = 0; i < ROWS; i++) {
        double best[SIDES_MOST] = { 0 };
        make_files(&rows[i]);
        measure(&rows[i], best);
        print_row(&rows[i], best);
        per_byte[i] = best[LIBRARY] / bytes_made();
    }
    print_growth(per_byte);
    return measure_walks();
}

/* Before anything is measured: all sides answer every row alike, and the
 * plain reader accepts what the core accepts. */
static int sides_agree(void)
{
    plain_figures seen = plain_compared(PLAIN_SEED, PLAIN_CASES);
    int right = seen.differ == 0 && seen.accepted > 0 && seen.refused > 0;
    if (!right)
        fprintf(stderr, "bench: the plain reader differs from the core in "
                        "%llu of %d cases\n",
                (unsigned long long)seen.differ, PLAIN_CASES);
    for (int i = 0; right && i < ROWS; i++) {
        make_files(&rows[i]);
        right = agree(&rows[i]);
    }
    return right;
}

/* ---- for a tool that counts */

static int print_rows(void)
{
    for (int i = 0; i < ROWS; i++) {
        make_files(&rows[i]);
        for (int s = 0; s < SIDES_MOST; s++)
            if (rows[i].sides[s] != NULL)
                printf("%d %d %s, %lu bytes, %s\n", i, s, rows[i].name,
                       (unsigned long)bytes_made(), side_name(s));
    }
    return 0;
}

/* A number that a word says, below a limit; the limit if it says none. */
static uint32_t number_in(const char *word, uint32_t limit)
{
    char *rest;
    unsigned long number = strtoul(word, &rest, 10);
    int right = *word >= '0' && *word <= '9' && *rest == '\0';
    return right && number < limit ? (uint32_t)number : limit;
}

static int repeat(const char *which, const char *of, const char *often)
{
    uint32_t i = number_in(which, ROWS), s = number_in(of, SIDES_MOST);
    uint32_t times = number_in(often, TIMES_MOST);
    if (i == ROWS || s == SIDES_MOST || rows[i].sides[s] == NULL) {
        fputs("bench: no such row and side\n", stderr);
        return MISUSED;
    }
    if (times == TIMES_MOST) {
        fputs("bench: TIMES is a number\n", stderr);
        return MISUSED;
    }
    make_files(&rows[i]);
    timed(rows[i].sides[s], times);
    return 0;
}

int main(int count, char **words)
{
    make_sum_tables();
    if (count == 2 && strcmp(words[1], "rows") == 0)
        return print_rows();
    if (count == 2 && strcmp(words[1], "walks") == 0)
        return sides_agree() ? measure_walks() : 1;
    if (count == 4)
        return repeat(words[1], words[2], words[3]);
    if (count == 1)
        return sides_agree() ? measure_all() : 1;
    fputs("usage: bench [walks | rows | ROW SIDE TIMES]\n", stderr);
    return MISUSED;
}
