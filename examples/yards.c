/* The files of 01's examples and of 02's degrees, and two yards with more routes than yardlist lists; docs/SHOWN.md asks about each of them.
 *
 * yards writes the names of the files, a line each; yards NAME writes that file to standard output. In all of them versions, station,
 * tracks and the like are 1, and what 01 does not speak of is 0, but for the length of a track. In track-2 the structure version is 2, and
 * the second point has a height below 0. */
#include <stdio.h>
#include <string.h>

#include "records.h"

enum { SOME = 1, ANY_TRACK = 1 };

/* ---- X.2 */

static void put_yard_header(void)
{
    put_opening(APPLICATION, VERSION_1, SOME, SOME);
    put_text("\xB1\xB1", 16);
}

/* A boundary with nothing known of its neighbour. */
static void put_plain_boundary(unsigned type, unsigned link)
{
    put_boundary(type, link, 0, UNKNOWN, 0, 0, ANY_TRACK);
}

static side linked(unsigned link)
{
    return (side){ 0, link, ANY_TRACK };
}

/* Yard Y of 01: a turnout with a start boundary at its front and an end boundary at each leg. */
enum { Y_START = 44, Y_NORMAL_END = 56, Y_REVERSE_END = 68, Y_TURNOUT = 80, Y_REVERSE_LINK = 99 };

/* Yard Y with a reverse link, which is 68 in Y itself. */
static void put_yard(unsigned reverse)
{
    put_yard_header();
    put(1, 1);
    put_entry(ANY_TRACK, Y_START);
    put(2, 1);
    put_entry(ANY_TRACK, Y_NORMAL_END);
    put_entry(ANY_TRACK, Y_REVERSE_END);
    put_groups(Y_TURNOUT, 0, 0, 0, 0);
    put_plain_boundary(DOWN_START, Y_TURNOUT);
    put_plain_boundary(DOWN_END, Y_TURNOUT);
    put_plain_boundary(DOWN_END, Y_TURNOUT);
    put_turnout(SOME, 1, linked(Y_START), linked(Y_NORMAL_END), linked(Y_REVERSE_END));
    change(Y_REVERSE_LINK, reverse, 2);
}

/* A row of diamonds between two boundaries. Each has two turnouts that face each other, with a joint between their reverse legs, since two
 * links of one record never name the same target:
 *
 *   start -- [facing] ------- [trailing] -- [facing] ------- [trailing] -- .. -- end
 *                   \- joint -/                    \- joint -/
 *
 * Each doubles the number of routes. With n diamonds there are 2^n routes and 5 * 2^n - 3 partial walks, and the list takes
 * 2^n * (2.5 * n + 3) words: with 8 diamonds more words than yardlist has, with 12 more than yardask has, with 14 more walks than may be
 * asked for. */
enum { START = 41, END = 53, FIRST_FACING = 65, DIAMOND = 48, TO_TRAILING = 24, JOINT = 18, FACING = 1, TRAILING = 0 };

static unsigned facing(unsigned diamond)
{
    return FIRST_FACING + DIAMOND * diamond;
}

static unsigned trailing(unsigned diamond)
{
    return facing(diamond) + TO_TRAILING;
}

static unsigned joint(unsigned diamond, unsigned diamonds)
{
    return facing(diamonds) + JOINT * diamond;
}

static void put_diamond(unsigned i, unsigned diamonds)
{
    unsigned before = i == 0 ? START : trailing(i - 1);
    unsigned after = i + 1 == diamonds ? END : facing(i + 1);
    put_turnout(2 * i + 1, FACING, linked(before), linked(trailing(i)), linked(joint(i, diamonds)));
    put_turnout(2 * i + 2, TRAILING, linked(after), linked(facing(i)), linked(joint(i, diamonds)));
}

static void put_diamonds(unsigned diamonds)
{
    put_yard_header();
    put(1, 1);
    put_entry(ANY_TRACK, START);
    put(1, 1);
    put_entry(ANY_TRACK, END);
    put_groups(FIRST_FACING, 0, 0, joint(0, diamonds), 0);
    put_plain_boundary(DOWN_START, facing(0));
    put_plain_boundary(DOWN_END, trailing(diamonds - 1));
    for (unsigned i = 0; i < diamonds; i++)
        put_diamond(i, diamonds);
    for (unsigned i = 0; i < diamonds; i++)
        put_joint(facing(i), trailing(i), "J", 0, ANY_TRACK);
}

/* ---- X.1 */

enum { LAST_OFFSET = 36 };

static const track shortest = { 1, SOME, 0, 0, 2, { { 0, 0, 0, 0, ALONE }, { 100, 0, 0, 0, ALONE } } };

/* 01's X.1 with one track and two points, with a last offset, which is 51 in the right file. */
static void put_track_file(unsigned last)
{
    put_opening(GEOGRAPHY, VERSION_1, SOME, SOME);
    put_tracks(&shortest, 1, NULL);
    change(LAST_OFFSET, last, 2);
}

/* The same track in structure version 2, where the last offset is 53. */
static void put_high_track_file(unsigned last)
{
    static const track_heights heights = { 0, -1 };
    put_opening(GEOGRAPHY, VERSION_2, SOME, SOME);
    put_tracks(&shortest, 1, &heights);
    change(LAST_OFFSET, last, 2);
}

/* Tracks that start at 0, 0 and whose exact coordinates between their two points are the fractions of which 01 speaks. Position 1 of track
 * 1 has latitude -5/3 and longitude 1/3, its position 2 longitude 2/3. Position 1 of track 2 has -3/2 and 1/2, that of track 3 -1/2
 * twice. */
static void put_fractions(unsigned tracks)
{
    static const track each[] = {
        { 1, SOME, 0, 0, 2, { { 0, 0, 0, 0, ALONE }, { 3, -5, 1, 0, ALONE } } },
        { 2, SOME, 0, 0, 2, { { 0, 0, 0, 0, ALONE }, { 2, -3, 1, 0, ALONE } } },
        { 3, SOME, 0, 0, 2, { { 0, 0, 0, 0, ALONE }, { 2, -1, -1, 0, ALONE } } },
    };
    put_opening(GEOGRAPHY, VERSION_1, SOME, SOME);
    put_tracks(each, tracks, NULL);
}

/* A track whose points after the first have 01's three increments as their latitude. */
static void put_increments(unsigned tracks)
{
    static const track only = {
        1, SOME, 0, 0, 4,
        { { 0, 0, 0, 0, ALONE }, { 1, -1, 0, 0, ALONE }, { 2, -8388608, 0, 0, ALONE }, { 3, 8388607, 0, 0, ALONE } }
    };
    put_opening(GEOGRAPHY, VERSION_1, SOME, SOME);
    put_tracks(&only, tracks, NULL);
}

/* Track 1 goes from 89 degrees north and 179 west to 90 and 180, which are 02's 324000000 and -648000000; track 2 from 0, 0 to one
 * milliarcsecond north and west of it. */
static void put_whole_degrees(unsigned tracks)
{
    static const track each[] = {
        { 1, SOME, 320400000, -644400000, 2, { { 0, 0, 0, 0, ALONE }, { 2, 3600000, -3600000, 0, ALONE } } },
        { 2, SOME, 0, 0, 2, { { 0, 0, 0, 0, ALONE }, { 2, 1, -1, 0, ALONE } } },
    };
    put_opening(GEOGRAPHY, VERSION_1, SOME, SOME);
    put_tracks(each, tracks, NULL);
}

/* ---- the files */

static const struct {
    const char *name;
    void (*put)(unsigned);
    unsigned with;
} files[] = {
    { "yard", put_yard, Y_REVERSE_END },
    { "yard-reverse-57", put_yard, 57 },
    { "yard-reverse-80", put_yard, 80 },
    { "yard-reverse-0", put_yard, 0 },
    { "yard-reverse-56", put_yard, 56 },
    { "yard-too-many-steps", put_diamonds, 14 },
    { "yard-no-room", put_diamonds, 8 },
    { "yard-long-list", put_diamonds, 12 },
    { "track", put_track_file, 51 },
    { "track-last-50", put_track_file, 50 },
    { "track-last-38", put_track_file, 38 },
    { "track-2", put_high_track_file, 53 },
    { "increments", put_increments, 1 },
    { "fractions", put_fractions, 3 },
    { "whole-degrees", put_whole_degrees, 2 },
};

enum { FILES = sizeof files / sizeof files[0] };

int main(int count, char **words)
{
    for (unsigned i = 0; i < FILES; i++) {
        if (count == 1) {
            puts(files[i].name);
        } else if (count == 2 && strcmp(words[1], files[i].name) == 0) {
            files[i].put(files[i].with);
            return write_file() ? 0 : 1;
        }
    }
    if (count == 1)
        return 0;
    fputs("usage: yards [NAME]\n", stderr);
    return 2;
}
