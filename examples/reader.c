/* An example of the C library: reads a station's two files and prints the verdict of the pair, the headers, the first track, the coordinate
 * in the middle of that track and its last point, both in degrees too, the record after the header of the X.2, the signal that it links to,
 * and the routes from it, which the second engine lists too.
 *
 *     tools/library && target/libyard/reader examples/1.1 examples/1.2 */
#include <inttypes.h>
#include <stdint.h>
#include <stdio.h>
#include <string.h>

#include "station_file.h"
#include "yard.h"

static station_file first, second;

/* Says why a question was refused, and whether it was. */
static int refused(const char *question, uint64_t answer)
{
    if (YARD_NUMBER(answer) == YARD_ANSWERED)
        return 0;
    printf("%s: refused, number %u at place %" PRIu32 "\n", question, YARD_NUMBER(answer), YARD_PLACE(answer));
    return 1;
}

static void print_pair(void)
{
    uint64_t answer = yard_pair(first.bytes, first.length, second.bytes, second.length);
    printf("pair: number %u at place %" PRIu32 " of file %u\n", YARD_NUMBER(answer), YARD_PLACE(answer), YARD_FILE(answer));
}

static void print_header1(void)
{
    uint8_t header[YARD_HEADER1_SIZE];
    if (refused("header of the X.1", yard_header1(first.bytes, first.length, header, sizeof header)))
        return;
    printf("X.1: station %" PRIu32 ", data version %" PRIu32 "\n", yard_unsigned(header, YARD_HEADER1_STATION),
           yard_unsigned(header, YARD_HEADER1_DATA));
}

/* The station's name is GB 18030 text; its bytes are printed in hexadecimal. */
static void print_header2(void)
{
    uint8_t header[YARD_HEADER2_SIZE];
    if (refused("header of the X.2", yard_header2(second.bytes, second.length, header, sizeof header)))
        return;
    const uint8_t *name = second.bytes + yard_unsigned(header, YARD_HEADER2_NAME);
    printf("X.2: station %" PRIu32 ", data version %" PRIu32 ", name ", yard_unsigned(header, YARD_HEADER2_STATION),
           yard_unsigned(header, YARD_HEADER2_DATA));
    for (uint32_t i = 0; i < yard_unsigned(header, YARD_HEADER2_NAME_BYTES); i++)
        printf("%02x", name[i]);
    putchar('\n');
}

/* Prints an answer in degrees, by as many digits as tell each double from every other. */
static void print_degrees(uint64_t answer, const uint8_t *degrees)
{
    if (refused("degrees", answer))
        return;
    printf("in degrees: latitude %.17g, longitude %.17g\n", yard_double(degrees, YARD_DEGREES_LATITUDE_DEGREES),
           yard_double(degrees, YARD_DEGREES_LONGITUDE_DEGREES));
}

/* Prints a point of the first track, its height if it has one, and its coordinate in degrees. */
static void print_point(uint32_t index)
{
    uint8_t point[YARD_POINT_SIZE], degrees[YARD_DEGREES_SIZE];
    if (refused("point", yard_point(first.bytes, first.length, 0, index, point, sizeof point)))
        return;
    printf("point %" PRIu32 " of track 0: position %" PRIu32 " cm, ", index, yard_unsigned(point, YARD_POINT_POSITION));
    if (yard_unsigned(point, YARD_POINT_HAS_HEIGHT))
        printf("height %" PRId32 " dm\n", yard_signed(point, YARD_POINT_HEIGHT));
    else
        puts("no height");
    print_degrees(yard_point_degrees(first.bytes, first.length, 0, index, degrees, sizeof degrees), degrees);
}

/* Prints the first track, the coordinate in its middle, and its last point. */
static void print_track(void)
{
    uint8_t track[YARD_TRACK_SIZE], coordinate[YARD_COORDINATE_SIZE], degrees[YARD_DEGREES_SIZE];
    if (refused("track 0", yard_track(first.bytes, first.length, 0, track, sizeof track)))
        return;
    uint32_t number = yard_unsigned(track, YARD_TRACK_NUMBER), end = yard_unsigned(track, YARD_TRACK_END_POSITION);
    printf("track 0: number %" PRIu32 ", %" PRIu32 " points, %" PRIu32 " cm long\n", number, yard_unsigned(track, YARD_TRACK_POINTS), end);
    if (refused("coordinate", yard_coordinate(first.bytes, first.length, number, end / 2, coordinate, sizeof coordinate)))
        return;
    printf("track %" PRIu32 " at %" PRIu32 " cm: latitude %" PRId32 ", longitude %" PRId32 "\n", number, end / 2,
           yard_signed(coordinate, YARD_COORDINATE_LATITUDE), yard_signed(coordinate, YARD_COORDINATE_LONGITUDE));
    print_degrees(yard_degrees(first.bytes, first.length, number, end / 2, degrees, sizeof degrees), degrees);
    print_point(yard_unsigned(track, YARD_TRACK_POINTS) - 1);
}

/* Where the records of an X.2 start, by its two boundary counts. */
static size_t records_start(void)
{
    enum { COUNT_PLACE = 23, BOUNDARY = 3, HEADER = 35 };
    size_t starts = second.bytes[COUNT_PLACE];
    size_t ends = second.bytes[COUNT_PLACE + 1 + BOUNDARY * starts];
    return HEADER + BOUNDARY * (starts + ends);
}

/* Prints the signal at a place, if there is one. Its name stands in the file, and no zero need follow it. */
static void print_signal(uint32_t start)
{
    uint8_t record[YARD_RECORD_SIZE];
    if (refused("signal", yard_record(second.bytes, second.length, start, record, sizeof record)))
        return;
    if (yard_unsigned(record, YARD_RECORD_KIND) != YARD_SIGNAL)
        return;
    const uint8_t *name = second.bytes + yard_unsigned(record, YARD_SIGNAL_NAME);
    int bytes = (int)yard_unsigned(record, YARD_SIGNAL_NAME_BYTES);
    printf("signal %" PRIu32 ": name '%.*s' of %d bytes, position %" PRIu32 " cm on track %" PRIu32 "\n", start, bytes, (const char *)name,
           bytes, yard_unsigned(record, YARD_SIGNAL_POSITION), yard_unsigned(record, YARD_SIGNAL_TRACK));
}

/* Prints the boundary after the header, and the signal that it links to. */
static void print_record(void)
{
    uint8_t record[YARD_RECORD_SIZE];
    size_t start = records_start();
    if (refused("record", yard_record(second.bytes, second.length, start, record, sizeof record)))
        return;
    uint32_t link = yard_unsigned(record, YARD_BOUNDARY_LINK);
    printf("record %zu: kind %" PRIu32 ", link %" PRIu32 ", position %" PRIu32 " cm on track %" PRIu32 "\n", start,
           yard_unsigned(record, YARD_RECORD_KIND), link, yard_unsigned(record, YARD_BOUNDARY_POSITION),
           yard_unsigned(record, YARD_BOUNDARY_TRACK));
    print_signal(link);
}

enum { LIMIT = 0, BUDGET = 65535, WORDS = 4096 };

/* Lists the routes from a start by the engine that needs no more stack for a larger yard, and prints whether its list is the one given. */
static void print_second_list(size_t start, const uint8_t *counts, const uint8_t *words)
{
    static uint8_t others[2 * WORDS];
    uint8_t other_counts[YARD_ROUTES_SIZE];
    if (refused("routes", yard_routes_flat(second.bytes, second.length, start, LIMIT, BUDGET, other_counts, sizeof other_counts, others,
                                           sizeof others)))
        return;
    int same = memcmp(other_counts, counts, sizeof other_counts) == 0
        && memcmp(others, words, 2 * yard_unsigned(counts, YARD_ROUTES_WORDS)) == 0;
    printf("the second engine: %s\n", same ? "the same" : "another list");
}

/* Prints every route from the boundary after the header, by the places of its objects. */
static void print_routes(void)
{
    static uint8_t words[2 * WORDS];
    uint8_t counts[YARD_ROUTES_SIZE];
    size_t start = records_start(), at = 0;
    if (refused("routes", yard_routes(second.bytes, second.length, start, LIMIT, BUDGET, counts, sizeof counts, words, sizeof words)))
        return;
    uint32_t routes = yard_unsigned(counts, YARD_ROUTES_ROUTES);
    printf("from %zu: %" PRIu32 " routes, %" PRIu32 " partial walks\n", start, routes, yard_unsigned(counts, YARD_ROUTES_WALKS));
    for (uint32_t i = 0; i < routes; i++) {
        unsigned objects = yard_word(words, at++);
        for (unsigned k = 0; k < objects; k++)
            printf(k + 1 < objects ? "%u " : "%u\n", yard_word(words, at++));
    }
    print_second_list(start, counts, words);
}

int main(int words, char **word)
{
    if (words != 3) {
        fprintf(stderr, "usage: reader X1FILE X2FILE\n");
        return 2;
    }
    if (!read_file(word[1], &first) || !read_file(word[2], &second))
        return 1;
    print_pair();
    print_header1();
    print_header2();
    print_track();
    print_record();
    print_routes();
    return 0;
}
