/* The independent core's side of the benchmark. It is compiled together with
 * the core, by each compiler; SIDES names it. */
#include "sides.h"

#ifndef SIDES
#define SIDES own_core
#endif

static uint64_t checksum(const stored *file)
{
    return ind_checksum(file->bytes, file->length);
}

static uint64_t x1(const stored *file)
{
    return ind_x1(file->bytes, file->length).number;
}

static uint64_t x2(const stored *file)
{
    return ind_x2(file->bytes, file->length).number;
}

static uint64_t pair(const stored *files)
{
    return ind_pair(files[0].bytes, files[0].length, files[1].bytes,
                    files[1].length)
        .number;
}

static uint64_t track(const stored *file)
{
    return ind_track_at(file->bytes, file->length, asked_track(file))
        .answer.number;
}

static uint64_t point(const stored *file)
{
    return ind_point_at(file->bytes, file->length, asked_track(file),
                        asked_point(file))
        .answer.number;
}

static uint64_t coordinate(const stored *file)
{
    return ind_coordinate_at(file->bytes, file->length, ASKED_NUMBER,
                             ASKED_POSITION)
        .answer.number;
}

static uint64_t record(const stored *file)
{
    return ind_record_at(file->bytes, file->length, asked_record(file))
        .answer.number;
}

static uint64_t header1(const stored *file)
{
    return ind_header1(file->bytes, file->length).answer.number;
}

static uint64_t header2(const stored *file)
{
    return ind_header2(file->bytes, file->length).answer.number;
}

static uint64_t routes(const stored *file)
{
    static uint16_t words[ROUTE_WORDS];
    static ind_walks walks;
    return ind_routes_from(file->bytes, file->length, asked_boundary(file),
                           ASKED_LIMIT, ASKED_BUDGET, words, ROUTE_WORDS,
                           &walks)
        .answer.number;
}

static uint64_t routes_flat(const stored *file)
{
    static uint16_t words[ROUTE_WORDS];
    return ind_routes_flat(file->bytes, file->length, asked_boundary(file),
                           ASKED_LIMIT, ASKED_BUDGET, words, ROUTE_WORDS)
        .answer.number;
}

static uint64_t ahead(const stored *files)
{
    uint8_t out[IND_AHEAD_ROOM];
    return ind_ahead_of(files[0].bytes, files[0].length, files[1].bytes,
                        files[1].length, asked_boundary(&files[1]),
                        ASKED_LINK, asked_lies, sizeof asked_lies, out,
                        sizeof out)
        .answer.number;
}

const core_sides SIDES = {
#ifdef __clang__
    "clang",
#else
    "gcc",
#endif
    checksum, x1, x2, pair, track, point, coordinate, record, header1,
    header2, routes, routes_flat, ahead
};
