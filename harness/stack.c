/* How much stack a call of the library takes: each runs on a stack of its own that was filled with one byte before, and what it has changed is
 * counted from the far end. A line for each, and status 1 where a call takes more than yard.h says. */
#define _XOPEN_SOURCE 700
#include <inttypes.h>
#include <stdio.h>
#include <string.h>
#include <ucontext.h>

#include "files.h"
#include "generator/calls.h"
#include "yard.h"

enum { STACK = 1 << 20, FILLED = 0xA5, LARGEST = 65535, FIRST_START = 41, FORKS = 600, WORDS = 8192, OUTPUT = 128 };

/* Where the header of an X.2 says where its first boundary starts. */
enum { FIRST_ENTRY_OFFSET = 25 };

/* What yard.h allows, in bytes. */
enum { ON_X1 = 14 << 10, ON_X2 = 22 << 10, ON_PAIR = 25 << 10, ON_ROUTES = 250 << 10 };

static unsigned char stack[STACK];
static ucontext_t caller, called;
static stored geography, heights, application, forked, station[2], far[2];
static uint8_t out[OUTPUT], words[WORDS], lies[YARD_LIES_SIZE];
static uint64_t answered;

/* A state of the loader for each file that is finished, the piece that has all of a file, and the room that it goes to. */
static uint8_t of_geography[YARD_LOAD_STATE_SIZE], of_heights[YARD_LOAD_STATE_SIZE], of_application[YARD_LOAD_STATE_SIZE];
static uint8_t piece[CALL_BYTES_MOST], room[LARGEST];
static uint32_t piece_length;

static void verdict1(void) { answered = yard_x1(geography.bytes, geography.length); }
static void verdict1_heights(void) { answered = yard_x1(heights.bytes, heights.length); }
static void verdict1_version_1(void) { answered = yard_x1_version_1(geography.bytes, geography.length); }
static void verdict2(void) { answered = yard_x2(application.bytes, application.length); }
static void pair(void) { answered = yard_pair(station[0].bytes, station[0].length, station[1].bytes, station[1].length); }
static void header1(void) { answered = yard_header1(geography.bytes, geography.length, out, OUTPUT); }
static void header2(void) { answered = yard_header2(application.bytes, application.length, out, OUTPUT); }
static void track(void) { answered = yard_track(geography.bytes, geography.length, 0, out, OUTPUT); }
static void point(void) { answered = yard_point(geography.bytes, geography.length, 0, 1, out, OUTPUT); }
static void point_height(void) { answered = yard_point(heights.bytes, heights.length, 0, 1, out, OUTPUT); }
static void coordinate(void) { answered = yard_coordinate(geography.bytes, geography.length, 1, 1, out, OUTPUT); }
static void coordinate_heights(void) { answered = yard_coordinate(heights.bytes, heights.length, 1, 1, out, OUTPUT); }
static void degrees(void) { answered = yard_degrees(geography.bytes, geography.length, 1, 1, out, OUTPUT); }
static void degrees_heights(void) { answered = yard_degrees(heights.bytes, heights.length, 1, 1, out, OUTPUT); }
static void point_degrees(void) { answered = yard_point_degrees(geography.bytes, geography.length, 0, 1, out, OUTPUT); }
static void point_degrees_heights(void) { answered = yard_point_degrees(heights.bytes, heights.length, 0, 1, out, OUTPUT); }
static void record(void) { answered = yard_record(application.bytes, application.length, FIRST_START, out, OUTPUT); }

static void routes(size_t limit)
{
    answered = yard_routes(forked.bytes, forked.length, FIRST_START, limit, 65535, out, OUTPUT, words, WORDS);
}

static void routes_of_160(void) { routes(160); }
static void routes_of_512(void) { routes(512); }

static void routes_flat(size_t limit)
{
    answered = yard_routes_flat(forked.bytes, forked.length, FIRST_START, limit, 65535, out, OUTPUT, words, WORDS);
}

static void flat_of_160(void) { routes_flat(160); }
static void flat_of_512(void) { routes_flat(512); }

/* What lies ahead of the first boundary of a pair, all turnouts normal. */
static void ahead_in(const stored *of)
{
    size_t first = yard_word(of[1].bytes + FIRST_ENTRY_OFFSET, 0);
    answered = yard_ahead(of[0].bytes, of[0].length, of[1].bytes, of[1].length, first, 0, lies, sizeof lies, out, OUTPUT);
}

static void ahead(void) { ahead_in(station); }
static void ahead_far(void) { ahead_in(far); }

static void load_open_of(uint8_t *state, const stored *file)
{
    uint32_t identity[IND_IDENTITY_NUMBERS];
    identity_of(file->bytes, file->length, identity);
    answered = yard_load_open(state, YARD_LOAD_STATE_SIZE, identity[0], identity[1], identity[2], identity[3], identity[4], room, LARGEST);
}

static void load_piece_of(uint8_t *state)
{
    answered = yard_load_piece(state, YARD_LOAD_STATE_SIZE, piece, piece_length, room, LARGEST);
}

static void load_finish_of(const uint8_t *state, const stored *file)
{
    answered = yard_load_finish(state, YARD_LOAD_STATE_SIZE, file->bytes, file->length);
}

/* A file in one piece. */
static void make_piece(const stored *file)
{
    uint32_t numbers[IND_PIECE_NUMBERS];
    identity_of(file->bytes, file->length, numbers);
    numbers[IND_START_NUMBER] = 0;
    numbers[IND_COUNT_NUMBER] = file->length;
    piece_length = 0;
    for (uint32_t i = 0; i < IND_PIECE_NUMBERS; i++)
        piece_length += put_groups(piece + piece_length, numbers[i], 0);
    memcpy(piece + piece_length, file->bytes, file->length);
    piece_length += file->length;
}

/* The state of a transfer whose bytes are all there. */
static void take_whole(uint8_t *state, const stored *file)
{
    load_open_of(state, file);
    make_piece(file);
    load_piece_of(state);
}

static void load_open(void) { load_open_of(of_application, &application); }
static void load_piece(void) { load_piece_of(of_application); }
static void load_finish1(void) { load_finish_of(of_geography, &geography); }
static void load_finish_heights(void) { load_finish_of(of_heights, &heights); }
static void load_finish2(void) { load_finish_of(of_application, &application); }

typedef struct {
    const char *name;
    void (*call)(void);
    unsigned allowed;
} measured;

static const measured calls[] = {
    { "x1", verdict1, ON_X1 },
    { "x1, heights", verdict1_heights, ON_X1 },
    { "x1-version-1", verdict1_version_1, ON_X1 },
    { "header1", header1, ON_X1 },
    { "track", track, ON_X1 },
    { "point", point, ON_X1 },
    { "point, heights", point_height, ON_X1 },
    { "coordinate", coordinate, ON_X1 },
    { "coordinate, heights", coordinate_heights, ON_X1 },
    { "degrees", degrees, ON_X1 },
    { "degrees, heights", degrees_heights, ON_X1 },
    { "point-degrees", point_degrees, ON_X1 },
    { "point-degrees, heights", point_degrees_heights, ON_X1 },
    { "x2", verdict2, ON_X2 },
    { "header2", header2, ON_X2 },
    { "record", record, ON_X2 },
    { "pair", pair, ON_PAIR },
    { "routes, limit 160", routes_of_160, ON_ROUTES },
    { "routes, limit 512", routes_of_512, ON_ROUTES },
    { "routes, limit 160, flat", flat_of_160, ON_X2 },
    { "routes, limit 512, flat", flat_of_512, ON_X2 },
    { "ahead", ahead, ON_PAIR },
    { "ahead, 64 objects", ahead_far, ON_PAIR },
    { "load-open", load_open, ON_X1 },
    { "load-piece", load_piece, ON_X1 },
    { "load-finish, X.1", load_finish1, ON_X2 },
    { "load-finish, heights", load_finish_heights, ON_X2 },
    { "load-finish, X.2", load_finish2, ON_X2 },
};

/* The bytes of the stack that a call changes. */
static unsigned taken(void (*call)(void))
{
    unsigned untouched = 0;
    memset(stack, FILLED, STACK);
    getcontext(&called);
    called.uc_stack.ss_sp = stack;
    called.uc_stack.ss_size = STACK;
    called.uc_link = &caller;
    makecontext(&called, call, 0);
    swapcontext(&caller, &called);
    while (untouched < STACK && stack[untouched] == FILLED)
        untouched++;
    return STACK - untouched;
}

int main(void)
{
    int over = 0;
    worst_geography(LARGEST, &geography);
    worst_heights(LARGEST, &heights);
    worst_application(LARGEST, &application);
    forks(FORKS, &forked);
    largest_station(LARGEST, station);
    far_station(LARGEST, far);
    take_whole(of_geography, &geography);
    take_whole(of_heights, &heights);
    make_piece(&application);
    for (size_t i = 0; i < sizeof calls / sizeof calls[0]; i++) {
        unsigned bytes = taken(calls[i].call);
        printf("%-23s %6u bytes of stack, at most %6u; number %u\n", calls[i].name, bytes, calls[i].allowed, YARD_NUMBER(answered));
        over |= bytes > calls[i].allowed;
    }
    if (over)
        fputs("stack: a call takes more than yard.h says\n", stderr);
    return over;
}
