/* What is asked of each side, and the independent core's side, which can be
 * compiled by more than one compiler for the same program. */
#ifndef SIDES_H
#define SIDES_H

#include "core/core.h"
#include "files.h"

/* A side's answer to a question about a file, or about two: the number. */
typedef uint64_t (*side)(const stored *files);

enum {
    /* In the middle of the first track's first stretch. */
    ASKED_NUMBER = 1,
    ASKED_POSITION = 1000,
    ASKED_LIMIT = 512,
    ASKED_BUDGET = 65535,
    ROUTE_WORDS = 300000,
    /* A boundary's only link. */
    ASKED_LINK = 0
};

/* All turnouts lie normal. */
static const uint8_t asked_lies[IND_LIES] = { IND_LIE_NORMAL };

/* The last track, its last point, the last record (a siding) and the first
 * boundary. */
static inline uint32_t asked_track(const stored *file)
{
    return ind_tracks(file->bytes) - 1;
}

static inline uint32_t asked_point(const stored *file)
{
    return ind_points(file->bytes, ind_track_place(asked_track(file))) - 1;
}

static inline uint32_t asked_record(const stored *file)
{
    return file->length - IND_CHECKSUM_SIZE - IND_SIDING_SIZE;
}

static inline uint32_t asked_boundary(const stored *file)
{
    return ind_two(file->bytes, IND_START_ENTRIES_PLACE + IND_ENTRY_OFFSET);
}

/* The core's answers, and what compiled them. */
typedef struct {
    const char *compiler;
    side checksum;
    side x1;
    side x2;
    side pair;
    side track;
    side point;
    side coordinate;
    side record;
    side header1;
    side header2;
    side routes;
    side routes_flat;
    side ahead;
} core_sides;

/* By this program's own compiler, and by clang where the program is built
 * with it. */
extern const core_sides own_core;
extern const core_sides clang_core;

#endif
