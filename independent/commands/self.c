/* 01's 'Yard examples', the roundings of 'Readings that look right', the
 * headers and the track of the example files, balise groups by 02's ticket 2,
 * the lookup of tracks by its ticket 7, long lines by its ticket 8, names by
 * its ticket 10, heights by its ticket 11 and fixed listings by both listers
 * of its ticket 12, each asserted of the core; the check of its ticket 13,
 * routes read backwards; degrees by its ticket 14; what lies ahead by its
 * ticket 9; and files in pieces by its ticket 6. */
#include "self.h"

#include <string.h>

#include "answer.h"
#include "commands.h"
#include "generator/stand.h"
#include "list.h"
#include "listings.h"

/* Yard Y: its other places. */
enum {
    Y_LENGTH = 108,
    Y_START_ENTRY = 24,
    Y_END_COUNT = 27,
    Y_FIRST_END_ENTRY = 28,
    Y_SECOND_END_ENTRY = 31,
    Y_GROUPS = 34,
    Y_ROOM = 8
};

/* The X.1 of one track and two points. */
enum {
    ONE_TRACK = 8,
    ONE_FIRST_POINT = 38,
    ONE_LAST_POINT = 51,
    ONE_LENGTH = 68
};

/* X.1s of one track in structure version 2: of two points, and of eight, the
 * fewest that are more when their bytes are counted by 13. */
enum {
    HIGH_POINT_SIZE = 15,
    HIGH_FIRST_OFFSET = 34,
    HIGH_LAST_OFFSET = 36,
    HIGH_FIRST_HEIGHT = 51,
    HIGH_LAST_POINT = 53,
    HIGH_LAST_HEADING = 63,
    HIGH_LAST_NEAR = 65,
    HIGH_LAST_HEIGHT = 66,
    EIGHT_POINTS = 8,
    EIGHT_LAST_POINT = 143,
    /* From point to point in position; in latitude it is 1. */
    HIGH_STEP = 3
};

/* The line over a group of balises: its other places. */
enum {
    G_LENGTH = 117,
    G_START_ENTRY = 24,
    G_END_COUNT = 27,
    G_END_ENTRY = 28,
    G_BALISE_GROUP = 33,
    G_COUNT = 5
};

/* A line from a start boundary over a signal and a joint to an end boundary,
 * and a siding. */
enum {
    N_START = 41,
    N_END = 53,
    N_SIGNAL = 65,
    N_JOINT = 84,
    N_SIDING = 102,
    N_LENGTH = 138,
    N_START_ENTRY = 24,
    N_END_COUNT = 27,
    N_END_ENTRY = 28,
    N_SIGNAL_GROUP = 35,
    N_JOINT_GROUP = 37,
    N_SIDING_GROUP = 39
};

/* A line of so many objects: the boundaries, and joints from here on. */
enum {
    L_START = 41,
    L_END = 53,
    L_JOINTS = 65,
    L_START_ENTRY = 24,
    L_END_COUNT = 27,
    L_END_ENTRY = 28,
    L_JOINT_GROUP = 37,
    L_LARGEST = 513
};

/* X.1s to look tracks up in: two points each, and the end of a track at so
 * many times its number. */
enum {
    NUMBERED = 256,
    NUMBERED_END = 10,
    NUMBERED_POINT_SIZE = 13
};

enum {
    /* More than any text that is asserted has. */
    TEXT_ROOM = 4000
};

static unsigned long passed, failed;

void ensure(int holds, const char *sentence)
{
    if (holds) {
        passed++;
        return;
    }
    failed++;
    printf("failed: %s\n", sentence);
}

static int says(ind_answer answer, uint32_t number, uint32_t place)
{
    return answer.number == number && answer.place == place;
}

static void put_boundary(uint8_t *bytes, uint32_t entry, uint32_t start,
                         uint8_t type, uint32_t link)
{
    bytes[entry + IND_ENTRY_TRACK] = 1;
    put_two(bytes, entry + IND_ENTRY_OFFSET, start);
    bytes[start + IND_TYPE_PLACE] = type;
    put_two(bytes, start + IND_BOUNDARY_LINK, link);
    bytes[start + IND_BOUNDARY_NEIGHBOUR_TYPE] = IND_NEIGHBOUR_UNKNOWN;
    bytes[start + IND_BOUNDARY_TRACK] = 1;
}

static void put_y_turnout(uint8_t *turnout, uint32_t reverse)
{
    turnout[IND_TYPE_PLACE] = IND_TURNOUT_TYPE;
    turnout[IND_TURNOUT_NUMBER] = 1;
    turnout[IND_TURNOUT_DIRECTION] = 1;
    put_two(turnout, IND_TURNOUT_FRONT, Y_START);
    put_two(turnout, IND_TURNOUT_NORMAL, Y_FIRST_END);
    put_two(turnout, IND_TURNOUT_REVERSE, reverse);
    turnout[IND_TURNOUT_FRONT_TRACK] = 1;
    turnout[IND_TURNOUT_NORMAL_TRACK] = 1;
    turnout[IND_TURNOUT_REVERSE_TRACK] = 1;
}

/* The header of an X.2 with one start boundary, up to its entry. */
static void begin_yard(stored *file, uint32_t length)
{
    uint8_t *bytes = file->bytes;
    memset(file, 0, sizeof *file);
    file->length = length;
    put_opening(bytes, IND_X2_TYPE, 1, 1);
    bytes[IND_STATION_NAME_PLACE] = 0xB1;
    bytes[IND_STATION_NAME_PLACE + 1] = 0xB1;
    bytes[IND_START_COUNT_PLACE] = 1;
}

void make_y(stored *file, uint32_t reverse)
{
    uint8_t *bytes = file->bytes;
    begin_yard(file, Y_LENGTH);
    bytes[Y_END_COUNT] = 2;
    put_two(bytes, Y_GROUPS, Y_TURNOUT);
    put_boundary(bytes, Y_START_ENTRY, Y_START, IND_DOWN_START, Y_TURNOUT);
    put_boundary(bytes, Y_FIRST_END_ENTRY, Y_FIRST_END, IND_DOWN_END,
                 Y_TURNOUT);
    put_boundary(bytes, Y_SECOND_END_ENTRY, Y_SECOND_END, IND_DOWN_END,
                 Y_TURNOUT);
    put_y_turnout(bytes + Y_TURNOUT, reverse);
    seal(file);
}

static void put_g_balise(uint8_t *balise, uint32_t place)
{
    balise[IND_TYPE_PLACE] = IND_BALISE_TYPE;
    put_two(balise, IND_BALISE_PREVIOUS, G_START);
    put_two(balise, IND_BALISE_NEXT, G_END);
    balise[IND_BALISE_SIZE_BYTE] = IND_BALISE_PLAIN_SIZE;
    balise[IND_BALISE_ATTRIBUTE] = IND_ATTRIBUTE_PHYSICAL_SAME;
    balise[IND_BALISE_TRACK] = 1;
    put_group(balise, place, G_COUNT);
}

void make_g(stored *file)
{
    uint8_t *bytes = file->bytes;
    begin_yard(file, G_LENGTH);
    bytes[G_END_COUNT] = 1;
    put_two(bytes, G_BALISE_GROUP, G_ONE);
    put_boundary(bytes, G_START_ENTRY, G_START, IND_DOWN_START, G_ONE);
    put_boundary(bytes, G_END_ENTRY, G_END, IND_DOWN_END, G_ONE);
    put_g_balise(bytes + G_ONE, 1);
    put_g_balise(bytes + G_THREE, 3);
    put_g_balise(bytes + G_FOUR, 4);
    seal(file);
}

/* The same, where no link names the group and its balises have none. */
static void make_loose_g(stored *file)
{
    make_g(file);
    put_two(file->bytes, G_START + IND_BOUNDARY_LINK, G_END);
    put_two(file->bytes, G_END + IND_BOUNDARY_LINK, G_START);
    put_four(file->bytes, G_ONE + IND_BALISE_PREVIOUS, 0);
    put_four(file->bytes, G_THREE + IND_BALISE_PREVIOUS, 0);
    put_four(file->bytes, G_FOUR + IND_BALISE_PREVIOUS, 0);
    seal(file);
}

static void put_n_name(stored *file, uint32_t place, const char *name)
{
    memcpy(file->bytes + place, name, IND_NAME_SIZE);
}

/* The line over a signal and a joint: where a name is due, it is one letter,
 * and the others are empty. */
static void make_n(stored *file)
{
    uint8_t *bytes = file->bytes, *signal = bytes + N_SIGNAL,
            *joint = bytes + N_JOINT, *siding = bytes + N_SIDING;
    begin_yard(file, N_LENGTH);
    bytes[N_END_COUNT] = 1;
    put_two(bytes, N_SIGNAL_GROUP, N_SIGNAL);
    put_two(bytes, N_JOINT_GROUP, N_JOINT);
    put_two(bytes, N_SIDING_GROUP, N_SIDING);
    put_boundary(bytes, N_START_ENTRY, N_START, IND_DOWN_START, N_SIGNAL);
    put_boundary(bytes, N_END_ENTRY, N_END, IND_DOWN_END, N_JOINT);
    signal[IND_TYPE_PLACE] = IND_SIGNAL_TYPE;
    put_two(signal, IND_SIGNAL_PREVIOUS, N_START);
    put_two(signal, IND_SIGNAL_NEXT, N_JOINT);
    signal[IND_SIGNAL_NAME] = 'X';
    signal[IND_SIGNAL_TRACK] = 1;
    signal[IND_SIGNAL_BYTE] = IND_SIGNAL_LEAST_TYPE;
    joint[IND_TYPE_PLACE] = IND_JOINT_TYPE;
    put_two(joint, IND_JOINT_PREVIOUS, N_SIGNAL);
    put_two(joint, IND_JOINT_NEXT, N_END);
    joint[IND_JOINT_TRACK] = 1;
    siding[IND_TYPE_PLACE] = IND_SIDING_TYPE;
    siding[IND_SIDING_NAME] = 'G';
    siding[IND_SIDING_TRACK] = 1;
    seal(file);
}

void make_one_track(stored *file, uint32_t position, int32_t latitude)
{
    uint8_t *bytes = file->bytes, *track = bytes + ONE_TRACK;
    memset(file, 0, sizeof *file);
    file->length = ONE_LENGTH;
    put_opening(bytes, IND_X1_TYPE, 1, 1);
    bytes[IND_TRACK_COUNT_PLACE] = 1;
    track[IND_TRACK_NUMBER] = 1;
    track[IND_TRACK_PROPERTY] = 1;
    put_four(track, IND_TRACK_END_POSITION, position);
    put_four(track, IND_TRACK_END_LATITUDE, (uint32_t)latitude);
    put_two(track, IND_TRACK_FIRST_POINT, ONE_FIRST_POINT);
    put_two(track, IND_TRACK_LAST_POINT, ONE_LAST_POINT);
    put_four(bytes, ONE_LAST_POINT + IND_POINT_POSITION, position);
    put_three(bytes, ONE_LAST_POINT + IND_POINT_LATITUDE,
              (uint32_t)latitude);
    seal(file);
}

/* One track of version 2 with so many points. */
static void make_high(stored *file, uint32_t points)
{
    uint8_t *bytes = file->bytes, *point = bytes + ONE_FIRST_POINT;
    uint32_t last = points - 1;
    make_one_track(file, HIGH_STEP * last, (int32_t)last);
    put_two(bytes, IND_STRUCTURE_VERSION_PLACE, 2);
    put_two(bytes + ONE_TRACK, IND_TRACK_LAST_POINT,
            ONE_FIRST_POINT + HIGH_POINT_SIZE * last);
    memset(point, 0, ONE_LENGTH - ONE_FIRST_POINT);
    for (uint32_t i = 0; i < points; i++) {
        put_four(point, IND_POINT_POSITION, HIGH_STEP * i);
        put_three(point, IND_POINT_LATITUDE, i);
        point += HIGH_POINT_SIZE;
    }
    file->length = (uint32_t)(point - bytes) + IND_CHECKSUM_SIZE;
    seal(file);
}

static void checksum_examples(void)
{
    static const uint8_t ones[] = { 0xFF, 0xFF, 0xFF, 0xFF };
    ensure(ind_checksum(ones, 1) == 0xFFFFFF00,
           "checksum of FF is 0xFFFFFF00");
    ensure(ind_checksum(ones, 4) == 0, "of FF FF FF FF is 0");
}

static void increment_examples(void)
{
    static const uint8_t minus_one[] = { 0xFF, 0xFF, 0xFF };
    static const uint8_t least[] = { 0x00, 0x00, 0x80 };
    static const uint8_t largest[] = { 0xFF, 0xFF, 0x7F };
    ensure(ind_increment(minus_one) == -1, "FF FF FF is -1");
    ensure(ind_increment(least) == -8388608, "00 00 80 is -8388608");
    ensure(ind_increment(largest) == 8388607, "FF FF 7F is 8388607");
}

/* Both ways: the fraction alone, and the coordinate of a whole file. */
static int between_gives(uint32_t end, int32_t latitude, uint32_t position,
                         int32_t expected)
{
    static stored file;
    ind_coordinate found;
    make_one_track(&file, end, latitude);
    found = ind_coordinate_at(file.bytes, file.length, 1, position);
    return ind_between(latitude, position, end) == expected
        && says(found.answer, 0, 0) && found.latitude == expected
        && found.longitude == 0;
}

static void coordinate_examples(void)
{
    ensure(between_gives(3, 1, 1, 0), "(0, 0) and (3, 1): 1 gives 0");
    ensure(between_gives(3, 1, 2, 1), "(0, 0) and (3, 1): 2 gives 1");
    ensure(between_gives(2, 1, 1, 1), "(0, 0) and (2, 1): 1 gives 1");
    ensure(between_gives(2, -1, 1, 0), "(0, 0) and (2, -1): 1 gives 0");
    ensure(between_gives(3, -5, 1, -2), "-5/3 is -2");
    ensure(between_gives(2, -3, 1, -1), "-3/2 is -1");
}

/* What a listing of Y must be: its answer, counts and words. */
typedef struct {
    uint32_t start;
    uint32_t limit;
    uint32_t budget;
    uint32_t room;
    uint32_t number;
    uint32_t routes;
    uint32_t walks;
    uint32_t words;
    uint16_t list[Y_ROOM];
    const char *sentence;
} listing_example;

static const listing_example listings[] = {
    { 44, 8, 65535, 8, 0, 2, 4, 8, { 3, 44, 80, 56, 3, 44, 80, 68 },
      "Y from 44, limit 8: 2 routes, 4 walks" },
    { 68, 8, 65535, 8, 0, 1, 3, 4, { 3, 68, 80, 44 },
      "from 68: 1 route, 3 walks" },
    { 44, 2, 65535, 8, 0, 0, 2, 0, { 0 },
      "limit 2 from 44: no route, 2 walks" },
    { 44, 8, 3, 8, 14, 0, 0, 0, { 0 }, "budget 3 from 44: 14" },
    { 44, 8, 4, 8, 0, 2, 4, 8, { 3, 44, 80, 56, 3, 44, 80, 68 },
      "budget 4: answered" },
    { 44, 8, 4, 7, 15, 0, 0, 0, { 0 }, "room 7: 15" },
    { 44, 0, 65535, 8, 0, 2, 4, 8, { 3, 44, 80, 56, 3, 44, 80, 68 },
      "room 8: answered" },
    { 44, 1, 4, 8, 13, 0, 0, 0, { 0 }, "limit 1: 13" },
    { 44, 513, 4, 8, 13, 0, 0, 0, { 0 }, "limit 513: 13" },
    { 44, 8, 0, 8, 13, 0, 0, 0, { 0 }, "budget 0: 13" },
    { 44, 8, 65536, 8, 13, 0, 0, 0, { 0 }, "budget 65,536: 13" },
    { 80, 8, 4, 8, 13, 0, 0, 0, { 0 }, "from a turnout: 13" },
    { 45, 8, 4, 8, 13, 0, 0, 0, { 0 }, "from inside a boundary: 13" }
};

static int listing_right(const stored *y, const listing_example *example)
{
    static ind_walks walks;
    uint16_t words[Y_ROOM];
    ind_routes found;
    int right;
    for (int i = 0; i < Y_ROOM; i++)
        words[i] = UNTOUCHED;
    found = ind_routes_from(y->bytes, y->length, example->start,
                            example->limit, example->budget, words,
                            example->room, &walks);
    right = says(found.answer, example->number, 0)
        && found.routes == example->routes && found.walks == example->walks
        && found.words == example->words;
    for (uint32_t i = 0; i < Y_ROOM; i++)
        right = right
            && words[i] == (i < example->words ? example->list[i] : UNTOUCHED);
    return right;
}

static void route_examples(void)
{
    static stored y;
    make_y(&y, Y_SECOND_END);
    ensure(says(ind_x2(y.bytes, y.length), 0, 0), "Y is accepted");
    for (size_t i = 0; i < sizeof listings / sizeof *listings; i++)
        ensure(listing_right(&y, &listings[i]), listings[i].sentence);
}

/* Where an object of a line of so many starts. */
static uint32_t l_start(uint32_t index, uint32_t objects)
{
    if (index == 0)
        return L_START;
    return index + 1 == objects ? L_END
                                : L_JOINTS + IND_JOINT_SIZE * (index - 1);
}

/* The line: each object links to the one before it and the one after it. */
static void make_line(stored *file, uint32_t objects)
{
    uint8_t *bytes = file->bytes;
    uint32_t last = objects - 1;
    begin_yard(file, L_JOINTS + IND_JOINT_SIZE * (objects - 2)
                   + IND_CHECKSUM_SIZE);
    bytes[L_END_COUNT] = 1;
    put_two(bytes, L_JOINT_GROUP, L_JOINTS);
    put_boundary(bytes, L_START_ENTRY, L_START, IND_DOWN_START,
                 l_start(1, objects));
    put_boundary(bytes, L_END_ENTRY, L_END, IND_DOWN_END,
                 l_start(last - 1, objects));
    for (uint32_t i = 1; i < last; i++) {
        uint8_t *joint = bytes + l_start(i, objects);
        joint[IND_TYPE_PLACE] = IND_JOINT_TYPE;
        put_two(joint, IND_JOINT_PREVIOUS, l_start(i - 1, objects));
        put_two(joint, IND_JOINT_NEXT, l_start(i + 1, objects));
        joint[IND_JOINT_TRACK] = 1;
    }
    seal(file);
}

/* A line of so many objects by a limit: whether its route is listed, and how
 * many partial walks there are. */
static const struct {
    uint32_t objects;
    uint32_t limit;
    uint32_t listed;
    uint32_t walks;
    const char *sentence;
} lines[] = {
    { 64, 64, 1, 64, "64 objects by limit 64" },
    { 64, 0, 1, 64, "64 objects by limit 0" },
    { 65, 64, 0, 64, "65 objects by limit 64: no route" },
    { 65, 0, 1, 65, "65 objects by limit 0" },
    { 160, 64, 0, 64, "160 objects by limit 64: no route" },
    { 160, 159, 0, 159, "160 objects by limit 159: no route" },
    { 160, 160, 1, 160, "160 objects by limit 160" },
    { 160, 0, 1, 160, "160 objects by limit 0" },
    { 161, 64, 0, 64, "161 objects by limit 64: no route" },
    { 161, 160, 0, 160, "161 objects by limit 160: no route" },
    { 161, 0, 0, 160, "161 objects by limit 0: no route" },
    { 161, 161, 1, 161, "161 objects by limit 161" },
    { 512, 511, 0, 511, "512 objects by limit 511: no route" },
    { 512, 512, 1, 512, "512 objects by limit 512" },
    { 513, 512, 0, 512, "513 objects by limit 512: no route" }
};

/* The listing of a line, by the second lister where flat is not 0: its words
 * are its objects, in order. */
static int line_right(uint32_t objects, uint32_t limit, uint32_t listed,
                      uint32_t walks, int flat)
{
    static stored file;
    static ind_walks lent;
    uint16_t words[1 + L_LARGEST];
    ind_routes found;
    int right;
    make_line(&file, objects);
    found = flat
        ? ind_routes_flat(file.bytes, file.length, L_START, limit,
                          IND_LARGEST_BUDGET, words, 1 + L_LARGEST)
        : ind_routes_from(file.bytes, file.length, L_START, limit,
                          IND_LARGEST_BUDGET, words, 1 + L_LARGEST, &lent);
    right = says(found.answer, 0, 0) && found.routes == listed
        && found.walks == walks && found.words == listed * (1 + objects)
        && (!listed || words[0] == objects);
    for (uint32_t i = 0; listed && i < objects; i++)
        right = right && words[1 + i] == l_start(i, objects);
    return right;
}

static void line_examples(void)
{
    for (size_t i = 0; i < sizeof lines / sizeof *lines; i++)
        ensure(line_right(lines[i].objects, lines[i].limit, lines[i].listed,
                          lines[i].walks, 0)
                   && line_right(lines[i].objects, lines[i].limit,
                                 lines[i].listed, lines[i].walks, 1),
               lines[i].sentence);
}

static void link_examples(void)
{
    static stored y;
    make_y(&y, 57);
    ensure(says(ind_x2(y.bytes, y.length), 8, 99), "reverse 57: 8 at 99");
    make_y(&y, Y_TURNOUT);
    ensure(says(ind_x2(y.bytes, y.length), 8, 99), "reverse 80: 8 at 99");
    make_y(&y, 0);
    ensure(says(ind_x2(y.bytes, y.length), 9, 69), "reverse 0: 9 at 69");
    make_y(&y, Y_FIRST_END);
    ensure(says(ind_x2(y.bytes, y.length), 9, 69), "reverse 56: 9 at 69");
}

/* The verdict once a balise of a file is of this place and count. */
static int group_gives(stored *file, uint32_t balise, uint32_t place,
                       uint32_t count, uint32_t number, uint32_t at)
{
    put_group(file->bytes + balise, place, count);
    seal(file);
    return says(ind_x2(file->bytes, file->length), number, at);
}

/* The verdict once the link at a place is this one. */
static int link_gives(stored *file, uint32_t place, uint32_t link,
                      uint32_t number, uint32_t at)
{
    put_two(file->bytes, place, link);
    seal(file);
    return says(ind_x2(file->bytes, file->length), number, at);
}

/* Members out of sequence: 7 at the group byte. Each change stays until the
 * file is made anew. */
static void sequence_examples(void)
{
    static stored g;
    make_g(&g);
    ensure(says(ind_x2(g.bytes, g.length), 0, 0),
           "1, 3 and 4 of five with number 1's links are accepted");
    ensure(group_gives(&g, G_FOUR, 5, 5, 0, 0), "1, 3 and 5 of five too");
    ensure(group_gives(&g, G_FOUR, 3, 5, 7, 112), "3 after 3: 7 at 112");
    ensure(group_gives(&g, G_FOUR, 2, 5, 7, 112), "2 after 3: 7 at 112");
    ensure(group_gives(&g, G_FOUR, 4, 6, 7, 112),
           "4 of six after 3 of five: 7 at 112");
    ensure(group_gives(&g, G_THREE, 3, 6, 7, 96),
           "3 of six after 1 of five: 7 at 96");
    ensure(group_gives(&g, G_ONE, 1, 6, 0, 0),
           "1, 3 and 4 of six are accepted");
    ensure(group_gives(&g, G_ONE, 2, 6, 7, 80),
           "2 after a boundary: 7 at 80");
    ensure(group_gives(&g, G_ONE, 7, 6, 7, 80),
           "7 of six, and after a boundary: 7 at 80");
    make_loose_g(&g);
    ensure(says(ind_x2(g.bytes, g.length), 0, 0),
           "a group without links is accepted");
    ensure(group_gives(&g, G_ONE, 2, 5, 7, 80),
           "2, 3 and 4 without links: 7 at 80");
}

/* Members whose links are not number 1's: 9 at the link. Each change stays
 * until the file is made anew. */
static void member_link_examples(void)
{
    static stored g;
    make_g(&g);
    ensure(link_gives(&g, G_FOUR + IND_BALISE_NEXT, 0, 9, 100),
           "4's next is 0: 9 at 100");
    ensure(link_gives(&g, G_FOUR + IND_BALISE_PREVIOUS, 0, 9, 98),
           "4 has no links: 9 at 98");
    ensure(link_gives(&g, G_FOUR + IND_BALISE_PREVIOUS, G_END, 9, 98),
           "4's previous is 1's next: 9 at 98");
    ensure(link_gives(&g, G_THREE + IND_BALISE_NEXT, G_START, 9, 84),
           "3's next is 1's previous: 9 at 84");
    ensure(link_gives(&g, G_THREE + IND_BALISE_PREVIOUS, G_ONE, 9, 82),
           "3's previous is number 1: 9 at 82");
    ensure(link_gives(&g, G_FOUR + IND_BALISE_NEXT, G_FOUR, 8, 100),
           "4's next is 4 itself: 8 at 100, before all of 9");
    ensure(link_gives(&g, G_THREE + IND_BALISE_NEXT, G_FOUR, 8, 84),
           "3's next is 4: 8 at 84");
    make_g(&g);
    ensure(link_gives(&g, G_START + IND_BOUNDARY_LINK, G_THREE, 8, 42),
           "a boundary's link to 3: 8 at 42");
    make_g(&g);
    ensure(link_gives(&g, G_ONE + IND_BALISE_NEXT, 0, 9, 54),
           "1's next is 0: the end boundary's link is not returned");
    make_g(&g);
    ensure(group_gives(&g, G_THREE, 1, 5, 9, 82),
           "another number 1: its previous link is not returned");
    make_loose_g(&g);
    ensure(link_gives(&g, G_THREE + IND_BALISE_NEXT, G_END, 9, 84),
           "3 has a next and 1 has none: 9 at 84");
    ensure(link_gives(&g, G_THREE + IND_BALISE_PREVIOUS, G_START, 9, 82),
           "3 has a previous and 1 has none: 9 at 82");
}

/* A field's eight bytes and how many of them are a name. */
typedef struct {
    char field[IND_NAME_SIZE + 1];
    uint32_t bytes;
    const char *sentence;
} name_example;

static const name_example names[] = {
    { "", 0, "no byte: an empty name, where it may be empty" },
    { "X", 1, "one byte" },
    { "-", 1, "a lone '-'" },
    { "!", 1, "0x21 alone" },
    { "~", 1, "0x7E alone" },
    { "X 1", 3, "a space inside" },
    { "A  B", 4, "two spaces in a row" },
    { "A     B", 7, "five spaces in a row" },
    { "ABCDEFGH", 8, "a full field without a zero" },
    { "A      H", 8, "a full field with spaces inside" },
    { "ABCDEF H", 8, "a full field, its last but one byte a space" },
    { "~~~~~~~~", 8, "a full field of 0x7E" },
    { "A ", IND_NO_NAME, "a space after 'A'" },
    { " A", IND_NO_NAME, "a space before 'A'" },
    { " A ", IND_NO_NAME, "a space before and after 'A'" },
    { " ", IND_NO_NAME, "a lone space" },
    { "  ", IND_NO_NAME, "two spaces alone" },
    { "        ", IND_NO_NAME, "eight spaces" },
    { "ABCDEFG ", IND_NO_NAME, "a space in the last byte of a full field" },
    { "A      ", IND_NO_NAME, "six spaces after 'A'" },
    { " BCDEFGH", IND_NO_NAME, "a space in the first byte of a full field" },
    { "A\0B", IND_NO_NAME, "a byte after a zero" },
    { "A\0\0\0\0\0\0B", IND_NO_NAME, "a last byte after zeros" },
    { "A\0 ", IND_NO_NAME, "a space after a zero" },
    { "\0A", IND_NO_NAME, "a zero before 'A'" },
    { "\0\0\0\0\0\0\0 ", IND_NO_NAME, "zeros and a space" },
    { "\x1F", IND_NO_NAME, "0x1F alone" },
    { "A\x1F" "B", IND_NO_NAME, "0x1F inside" },
    { "ABCDEFG\x1F", IND_NO_NAME, "0x1F last" },
    { "\x01", IND_NO_NAME, "0x01 alone" },
    { "\x7F", IND_NO_NAME, "0x7F alone" },
    { "A\x7F" "B", IND_NO_NAME, "0x7F inside" },
    { "ABCDEFG\x7F", IND_NO_NAME, "0x7F last" },
    { "A\x80", IND_NO_NAME, "0x80 last" },
    { "\xC1\xC2", IND_NO_NAME, "letters with their high bits set" },
    { "\xFF\xFF\xFF\xFF\xFF\xFF\xFF\xFF", IND_NO_NAME, "ones" }
};

/* The five names of the line, and whether each may be empty. */
static const struct {
    uint32_t place;
    int may_be_empty;
} name_fields[] = {
    { N_SIGNAL + IND_SIGNAL_NAME, 0 },
    { N_JOINT + IND_JOINT_NAME, 1 },
    { N_SIDING + IND_SIDING_NAME, 0 },
    { N_SIDING + IND_SIDING_UP_SIGNAL, 1 },
    { N_SIDING + IND_SIDING_DOWN_SIGNAL, 1 }
};

/* The example in each of the five fields in turn: accepted, or 5 at the
 * field's first byte. */
static int name_judged(const name_example *example)
{
    static stored n;
    int right = 1;
    for (size_t i = 0; i < sizeof name_fields / sizeof *name_fields; i++) {
        uint32_t place = name_fields[i].place;
        int taken = example->bytes != IND_NO_NAME
            && (example->bytes > 0 || name_fields[i].may_be_empty);
        make_n(&n);
        put_n_name(&n, place, example->field);
        seal(&n);
        right = right
            && says(ind_x2(n.bytes, n.length), taken ? 0 : IND_FIELD,
                    taken ? 0 : place);
    }
    return right;
}

/* The example as each of the five names, an empty one where it may be: the
 * records say where it stands and how many bytes it has. */
static int name_read(const name_example *example)
{
    static stored n;
    ind_signal signal;
    ind_joint joint;
    ind_siding siding;
    /* Where a name is due, the line's own of one letter stands for none. */
    uint32_t bytes = example->bytes, named = bytes > 0 ? bytes : 1;
    if (bytes == IND_NO_NAME)
        return 1;
    make_n(&n);
    for (size_t i = 0; i < sizeof name_fields / sizeof *name_fields; i++)
        if (bytes > 0 || name_fields[i].may_be_empty)
            put_n_name(&n, name_fields[i].place, example->field);
    seal(&n);
    signal = ind_record_at(n.bytes, n.length, N_SIGNAL).signal;
    joint = ind_record_at(n.bytes, n.length, N_JOINT).joint;
    siding = ind_record_at(n.bytes, n.length, N_SIDING).siding;
    return signal.name == N_SIGNAL + IND_SIGNAL_NAME
        && signal.name_bytes == named && joint.name == N_JOINT + IND_JOINT_NAME
        && joint.name_bytes == bytes
        && siding.name == N_SIDING + IND_SIDING_NAME
        && siding.name_bytes == named
        && siding.up_signal == N_SIDING + IND_SIDING_UP_SIGNAL
        && siding.up_signal_bytes == bytes
        && siding.down_signal == N_SIDING + IND_SIDING_DOWN_SIGNAL
        && siding.down_signal_bytes == bytes;
}

/* Whether a field is a name of so many bytes, as the rule reads. */
static int is_name_of(const uint8_t *field, uint32_t bytes)
{
    for (uint32_t i = 0; i < IND_NAME_SIZE; i++)
        if (i < bytes ? field[i] < 0x20 || field[i] > 0x7E : field[i] != 0)
            return 0;
    return bytes == 0 || (field[0] != 0x20 && field[bytes - 1] != 0x20);
}

enum {
    EDGES = 6,
    /* EDGES to the power of IND_NAME_SIZE. */
    EDGE_FIELDS = 1679616
};

/* The field of a number: to each digit an edge of the rule. */
static void put_edges(uint8_t *field, uint32_t number)
{
    static const uint8_t edges[EDGES] = { 0x00, 0x1F, 0x20, 0x7E, 0x7F, 0x80 };
    for (uint32_t i = 0; i < IND_NAME_SIZE; i++) {
        field[i] = edges[number % EDGES];
        number /= EDGES;
    }
}

/* How many bytes the name of a field has by the rule, IND_NO_NAME where it is
 * none of any number. */
static uint32_t name_bytes_due(const uint8_t *field)
{
    uint32_t bytes = 0;
    while (bytes <= IND_NAME_SIZE && !is_name_of(field, bytes))
        bytes++;
    return bytes <= IND_NAME_SIZE ? bytes : (uint32_t)IND_NO_NAME;
}

static int edge_fields_right(void)
{
    uint8_t field[IND_NAME_SIZE];
    for (uint32_t number = 0; number < EDGE_FIELDS; number++) {
        put_edges(field, number);
        if (ind_name_bytes(field, 0) != name_bytes_due(field))
            return 0;
    }
    return 1;
}

static void name_examples(void)
{
    for (size_t i = 0; i < sizeof names / sizeof *names; i++)
        ensure(name_judged(&names[i]) && name_read(&names[i]),
               names[i].sentence);
    ensure(edge_fields_right(), "every field of 00, 1F, 20, 7E, 7F and 80");
}

static int last_offset_gives(uint32_t last, uint32_t number, uint32_t place)
{
    static stored file;
    make_one_track(&file, 1, 0);
    put_two(file.bytes + ONE_TRACK, IND_TRACK_LAST_POINT, last);
    seal(&file);
    return says(ind_x1(file.bytes, file.length), number, place);
}

static void offset_examples(void)
{
    ensure(last_offset_gives(51, 0, 0), "68 bytes, offsets 38 and 51");
    ensure(last_offset_gives(50, 6, 36), "last offset 50: 6 at 36");
    ensure(last_offset_gives(38, 6, 36), "last offset 38: 6 at 36");
}

int printed(FILE *kept, const char *due)
{
    char text[TEXT_ROOM];
    size_t length;
    rewind(kept);
    length = fread(text, 1, sizeof text, kept);
    fclose(kept);
    return length == strlen(due) && memcmp(text, due, length) == 0;
}

static int list_prints(const stored *y, const char *due)
{
    FILE *kept = tmpfile();
    if (kept == NULL)
        return 0;
    print_list(kept, y->bytes, y->length);
    return printed(kept, due);
}

int prints(const posed *ask, const char *due)
{
    FILE *kept = tmpfile();
    if (kept == NULL)
        return 0;
    print_answer(kept, ask);
    return printed(kept, due);
}

/* A question about one file, its first number given and all others 0. */
static int asked_prints(uint32_t question, uint32_t number,
                        const stored *file, const char *due)
{
    posed ask = { question,
                  { number },
                  { file->bytes, NULL },
                  { file->length, 0 },
                  NULL };
    return prints(&ask, due);
}

static int answer_prints(uint32_t question, const stored *file,
                         const char *due)
{
    return asked_prints(question, 0, file, due);
}

/* A name stands with the number of its bytes after it. */
static void name_line_examples(void)
{
    static stored n;
    make_n(&n);
    put_n_name(&n, N_SIGNAL + IND_SIGNAL_NAME, "X 1\0\0\0\0");
    put_n_name(&n, N_SIDING + IND_SIDING_UP_SIGNAL, "-\0\0\0\0\0\0");
    put_three(n.bytes, N_SIDING + IND_SIDING_UP_BALISE, IND_NO_BALISE);
    seal(&n);
    ensure(asked_prints(ASK_RECORD, N_SIGNAL, &n, "answer 0 0\n"
                                                  "kind signal\n"
                                                  "previous 41\n"
                                                  "next 84\n"
                                                  "name X 1\n"
                                                  "name_bytes 3\n"
                                                  "position 0\n"
                                                  "track 1\n"
                                                  "direction none\n"
                                                  "type 1\n"),
           "a signal with a space in its name");
    ensure(asked_prints(ASK_RECORD, N_JOINT, &n, "answer 0 0\n"
                                                 "kind joint\n"
                                                 "previous 65\n"
                                                 "next 53\n"
                                                 "name -\n"
                                                 "name_bytes 0\n"
                                                 "position 0\n"
                                                 "track 1\n"),
           "an unnamed joint");
    ensure(asked_prints(ASK_RECORD, N_SIDING, &n, "answer 0 0\n"
                                                  "kind siding\n"
                                                  "name G\n"
                                                  "name_bytes 1\n"
                                                  "track 1\n"
                                                  "up_balise -\n"
                                                  "up_signal -\n"
                                                  "up_signal_bytes 1\n"
                                                  "down_balise 0\n"
                                                  "down_signal -\n"
                                                  "down_signal_bytes 0\n"),
           "a siding: the exit signal '-', and none");
}

static void track_example(void)
{
    static stored file;
    make_one_track(&file, 3, 1);
    ensure(answer_prints(ASK_TRACK, &file, "answer 0 0\n"
                                           "number 1\n"
                                           "property 1\n"
                                           "start_position 0\n"
                                           "start_latitude 0\n"
                                           "start_longitude 0\n"
                                           "end_position 3\n"
                                           "end_latitude 1\n"
                                           "end_longitude 0\n"
                                           "first_offset 38\n"
                                           "last_offset 51\n"
                                           "points 2\n"),
           "the ten fields of a track's entry, and its points");
}

/* An X.1's header: no two of its fields alike. */
static void header1_examples(void)
{
    static stored file;
    make_one_track(&file, 1, 0);
    put_opening(file.bytes, IND_X1_TYPE, 0x0203, 0x0405);
    seal(&file);
    ensure(answer_prints(ASK_HEADER1, &file, "answer 0 0\n"
                                             "structure 1\n"
                                             "data 515\n"
                                             "station 1029\n"),
           "header of an X.1");
    ensure(answer_prints(ASK_HEADER2, &file, "answer 1 0\n"),
           "an X.1 of 68 bytes is too short for header2");
    put_two(file.bytes, IND_STATION_PLACE, 0);
    seal(&file);
    ensure(answer_prints(ASK_HEADER1, &file, "answer 5 5\n"),
           "header1 first gives the X.1's fault");
}

/* What becomes of the version 2 file of two points once its length, structure
 * version, type or checksum is changed: the verdict, and that of a reader of
 * version 1. */
typedef struct {
    uint32_t length;
    uint32_t version;
    uint8_t type;
    uint8_t checksum_change;
    uint32_t number;
    uint32_t place;
    uint32_t number_1;
    uint32_t place_1;
    const char *sentence;
} version_example;

static const version_example versions[] = {
    { 72, 2, 1, 0, 0, 0, 4, 1, "version 2 of 72 bytes is accepted" },
    { 71, 2, 1, 0, 1, 0, 4, 1, "of 71 bytes: 1 at 0" },
    { 70, 2, 1, 0, 1, 0, 4, 1, "of 70 bytes: 1 at 0" },
    { 69, 2, 1, 0, 1, 0, 4, 1, "of 69 bytes: 1 at 0" },
    { 68, 2, 1, 0, 1, 0, 4, 1, "of 68 bytes: 1 at 0" },
    { 67, 2, 1, 0, 1, 0, 1, 0, "of 67 bytes: 1 at 0 for every reader" },
    { 73, 2, 1, 0, 6, 68, 4, 1, "of 73 bytes: the points stop at 68" },
    { 65535, 2, 1, 0, 6, 68, 4, 1, "of 65,535 bytes too" },
    { 65536, 2, 1, 0, 1, 0, 1, 0, "of 65,536 bytes: 1 for every reader" },
    { 72, 2, 1, 1, 2, 68, 2, 68, "72 bytes, wrong checksum: 2 at 68" },
    { 71, 2, 1, 1, 2, 67, 2, 67, "71 bytes, wrong checksum: 2 at 67" },
    { 68, 2, 1, 1, 2, 64, 2, 64, "68 bytes, wrong checksum: 2 at 64" },
    { 67, 2, 1, 1, 1, 0, 1, 0, "67 bytes, wrong checksum: 1 at 0" },
    { 72, 2, 2, 0, 3, 0, 3, 0, "version 2 of type 2: 3 at 0" },
    { 71, 2, 2, 0, 3, 0, 3, 0, "version 2 of type 2, 71 bytes: 3 at 0" },
    { 72, 3, 1, 0, 4, 1, 4, 1, "version 3: 4 at 1" },
    { 70, 3, 1, 0, 4, 1, 4, 1, "version 3 of 70 bytes: 4 at 1" },
    { 67, 3, 1, 0, 1, 0, 1, 0, "version 3 of 67 bytes: 1 at 0" },
    { 72, 0, 1, 0, 4, 1, 4, 1, "version 0: 4 at 1" },
    { 72, 0x0101, 1, 0, 4, 1, 4, 1, "version 257: 4 at 1" },
    { 72, 0x0102, 1, 0, 4, 1, 4, 1, "version 258: 4 at 1" },
    { 70, 0x0102, 1, 0, 4, 1, 4, 1, "version 258 of 70 bytes: 4 at 1" },
    { 72, 0x0200, 1, 0, 4, 1, 4, 1, "version 512: 4 at 1" },
    { 72, 1, 1, 0, 6, 36, 6, 36, "points of 15 bytes in version 1: 6" },
    { 71, 1, 1, 0, 6, 36, 6, 36, "version 1 of 71 bytes is long enough" }
};

/* The verdict of a file, and that of a reader of version 1. */
static int both_say(const stored *file, uint32_t number, uint32_t place,
                    uint32_t number_1, uint32_t place_1)
{
    return says(ind_x1(file->bytes, file->length), number, place)
        && says(ind_x1_version_1(file->bytes, file->length), number_1,
                place_1);
}

static int version_right(const version_example *example)
{
    static stored file;
    make_high(&file, 2);
    file.length = example->length;
    put_two(file.bytes, IND_STRUCTURE_VERSION_PLACE, example->version);
    file.bytes[IND_FILE_TYPE_PLACE] = example->type;
    seal(&file);
    file.bytes[file.length - 1] ^= example->checksum_change;
    return both_say(&file, example->number, example->place,
                    example->number_1, example->place_1);
}

static void version_examples(void)
{
    static stored file, y;
    for (size_t i = 0; i < sizeof versions / sizeof *versions; i++)
        ensure(version_right(&versions[i]), versions[i].sentence);
    make_one_track(&file, 1, 0);
    ensure(both_say(&file, 0, 0, 0, 0), "both readers accept version 1");
    put_two(file.bytes, IND_STRUCTURE_VERSION_PLACE, 2);
    seal(&file);
    ensure(both_say(&file, 1, 0, 4, 1), "68 bytes named version 2: 1 at 0");
    make_y(&y, Y_SECOND_END);
    put_two(y.bytes, IND_STRUCTURE_VERSION_PLACE, 2);
    seal(&y);
    ensure(says(ind_x2(y.bytes, y.length), 4, 1),
           "an X.2 of version 2: 4 at 1");
}

/* The verdict of the version 2 file of two points, with heights below 0, once
 * a number of so many bytes at a place of it is this one. */
static int high_gives(uint32_t at, uint32_t bytes, uint32_t value,
                      uint32_t number, uint32_t place)
{
    static stored file;
    make_high(&file, 2);
    put_two(file.bytes, HIGH_FIRST_HEIGHT, 0xFFFF);
    put_two(file.bytes, HIGH_LAST_HEIGHT, 0x8000);
    for (uint32_t i = 0; i < bytes; i++)
        file.bytes[at + i] = (uint8_t)(value >> IND_BITS_PER_BYTE * i);
    seal(&file);
    return both_say(&file, number, place, 4, 1);
}

/* Layout, fields and agreement of version 2: its points stand at 38 and 53. */
static void high_examples(void)
{
    ensure(high_gives(HIGH_LAST_OFFSET, 2, 53, 0, 0),
           "72 bytes, offsets 38 and 53");
    ensure(high_gives(HIGH_LAST_OFFSET, 2, 52, 6, 36),
           "last offset 52: 6 at 36");
    ensure(high_gives(HIGH_LAST_OFFSET, 2, 51, 6, 36),
           "last offset 51: 6 at 36");
    ensure(high_gives(HIGH_LAST_OFFSET, 2, 38, 6, 36),
           "last offset 38: 6 at 36");
    ensure(high_gives(HIGH_LAST_OFFSET, 2, 54, 6, 36),
           "last offset 54: 6 at 36");
    ensure(high_gives(HIGH_LAST_OFFSET, 2, 68, 6, 36),
           "last offset 68: 6 at 36");
    ensure(high_gives(HIGH_FIRST_OFFSET, 2, 40, 6, 34),
           "first offset 40: 6 at 34");
    ensure(high_gives(HIGH_LAST_HEADING, 2, 31417, 5, 63),
           "heading 31417: 5 at 63");
    ensure(high_gives(HIGH_LAST_NEAR, 1, 2, 5, 65), "near flag 2: 5 at 65");
    ensure(high_gives(HIGH_LAST_NEAR, 1, 1, 7, 38),
           "near flags 0 and 1: 7 at 38");
    ensure(high_gives(HIGH_LAST_POINT, 1, 0, 7, 53),
           "no rising position: 7 at 53");
    ensure(high_gives(HIGH_FIRST_HEIGHT, 2, 0x7FFF, 0, 0)
               && high_gives(HIGH_LAST_HEIGHT, 2, 0, 0, 0),
           "any height is right");
}

/* The two bytes of a height, and the height. */
static const struct {
    uint8_t bytes[2];
    int32_t height;
    const char *sentence;
} heights[] = {
    { { 0x00, 0x00 }, 0, "height 00 00 is 0" },
    { { 0x01, 0x00 }, 1, "height 01 00 is 1" },
    { { 0x00, 0x01 }, 256, "height 00 01 is 256" },
    { { 0xFF, 0xFF }, -1, "height FF FF is -1" },
    { { 0xFE, 0xFF }, -2, "height FE FF is -2" },
    { { 0x00, 0x80 }, -32768, "height 00 80 is -32768" },
    { { 0xFF, 0x7F }, 32767, "height FF 7F is 32767" }
};

/* The height of one point, that of the other being 0. */
static int height_read(const uint8_t bytes[2], uint32_t place, uint32_t index,
                       int32_t height)
{
    static stored file;
    ind_point point, other;
    make_high(&file, 2);
    memcpy(file.bytes + place, bytes, 2);
    seal(&file);
    point = ind_point_at(file.bytes, file.length, 0, index);
    other = ind_point_at(file.bytes, file.length, 0, 1 - index);
    return says(point.answer, 0, 0) && point.has_height == 1
        && point.height == height && other.has_height == 1
        && other.height == 0;
}

static void height_examples(void)
{
    static stored file;
    for (size_t i = 0; i < sizeof heights / sizeof *heights; i++)
        ensure(height_read(heights[i].bytes, HIGH_FIRST_HEIGHT, 0,
                           heights[i].height)
                   && height_read(heights[i].bytes, HIGH_LAST_HEIGHT, 1,
                                  heights[i].height),
               heights[i].sentence);
    make_high(&file, 2);
    file.bytes[HIGH_FIRST_HEIGHT + 1] = 0x80;
    seal(&file);
    ensure(answer_prints(ASK_POINT, &file, "answer 0 0\n"
                                           "position 0\n"
                                           "latitude_increment 0\n"
                                           "longitude_increment 0\n"
                                           "heading 0\n"
                                           "near 0\n"
                                           "height -32768\n"),
           "a point with a height");
    make_one_track(&file, 1, 0);
    ensure(answer_prints(ASK_POINT, &file, "answer 0 0\n"
                                           "position 0\n"
                                           "latitude_increment 0\n"
                                           "longitude_increment 0\n"
                                           "heading 0\n"
                                           "near 0\n"
                                           "height -\n"),
           "a point of version 1 has no height");
}

/* A point of a track of eight in version 2: its position and latitude. */
static int eighth_reads(const stored *file, uint32_t index)
{
    ind_point point = ind_point_at(file->bytes, file->length, 0, index);
    return says(point.answer, 0, 0) && point.position == HIGH_STEP * index
        && point.latitude_increment == (int32_t)index;
}

static int latitude_at(const stored *file, uint32_t position, int32_t due)
{
    ind_coordinate found =
        ind_coordinate_at(file->bytes, file->length, 1, position);
    return says(found.answer, 0, 0) && found.latitude == due
        && found.longitude == 0;
}

/* Questions on an X.1 of version 2. */
static void high_question_examples(void)
{
    static stored file, y;
    make_high(&file, EIGHT_POINTS);
    make_y(&y, Y_SECOND_END);
    ensure(ind_track_at(file.bytes, file.length, 0).points == 8
               && ind_track_at(file.bytes, file.length, 0).last_offset
                   == EIGHT_LAST_POINT,
           "eight points of 15 bytes");
    ensure(eighth_reads(&file, 0) && eighth_reads(&file, 1)
               && eighth_reads(&file, 6) && eighth_reads(&file, 7),
           "each where it stands");
    ensure(says(ind_point_at(file.bytes, file.length, 0, 8).answer, 13, 0),
           "a ninth is out of range");
    ensure(latitude_at(&file, 1, 0) && latitude_at(&file, 2, 1)
               && latitude_at(&file, 19, 6) && latitude_at(&file, 20, 7)
               && latitude_at(&file, 21, 7),
           "coordinates between points of 15 bytes");
    ensure(answer_prints(ASK_HEADER1, &file, "answer 0 0\n"
                                             "structure 2\n"
                                             "data 1\n"
                                             "station 1\n"),
           "header of a version 2 file");
    ensure(answer_prints(ASK_X1_VERSION_1, &file, "answer 4 1\n"),
           "a version 1 reader answers 4 to it");
    ensure(says(ind_pair(file.bytes, file.length, y.bytes, y.length), 0, 0),
           "an X.1 of version 2 and Y are a pair");
    file.length--;
    seal(&file);
    ensure(both_say(&file, 6, 36, 4, 1), "one byte less: 6 at 36");
}

/* A track with two points, both at a latitude of its number and a longitude
 * of as much below 0. */
static void put_numbered(uint8_t *bytes, uint32_t place, uint32_t number,
                         uint32_t first)
{
    uint8_t *track = bytes + place;
    uint32_t last = first + NUMBERED_POINT_SIZE;
    track[IND_TRACK_NUMBER] = (uint8_t)number;
    track[IND_TRACK_PROPERTY] = 1;
    put_four(track, IND_TRACK_START_LATITUDE, number);
    put_four(track, IND_TRACK_START_LONGITUDE, 0 - number);
    put_four(track, IND_TRACK_END_POSITION, NUMBERED_END * number);
    put_four(track, IND_TRACK_END_LATITUDE, number);
    put_four(track, IND_TRACK_END_LONGITUDE, 0 - number);
    put_two(track, IND_TRACK_FIRST_POINT, first);
    put_two(track, IND_TRACK_LAST_POINT, last);
    put_four(bytes, last + IND_POINT_POSITION, NUMBERED_END * number);
}

/* Which track numbers are present, and the X.1 with these tracks. */
typedef struct {
    uint8_t present[NUMBERED];
    stored file;
} numbered;

static void make_numbered(numbered *of)
{
    uint8_t *bytes = of->file.bytes;
    uint32_t tracks = 0, place = IND_TRACKS_PLACE, first;
    memset(&of->file, 0, sizeof of->file);
    put_opening(bytes, IND_X1_TYPE, 1, 1);
    for (uint32_t number = 0; number < NUMBERED; number++)
        tracks += of->present[number];
    bytes[IND_TRACK_COUNT_PLACE] = (uint8_t)tracks;
    first = IND_TRACKS_PLACE + IND_TRACK_SIZE * tracks;
    for (uint32_t number = 0; number < NUMBERED; number++) {
        if (!of->present[number])
            continue;
        put_numbered(bytes, place, number, first);
        place += IND_TRACK_SIZE;
        first += IND_LEAST_POINTS * NUMBERED_POINT_SIZE;
    }
    of->file.length = first + IND_CHECKSUM_SIZE;
    seal(&of->file);
}

/* The station of eight tracks at the edges of the four words. */
static void make_edges(numbered *of)
{
    static const uint8_t edges[] = { 1, 63, 64, 127, 128, 191, 192, 255 };
    memset(of->present, 0, sizeof of->present);
    for (size_t i = 0; i < sizeof edges; i++)
        of->present[edges[i]] = 1;
    make_numbered(of);
}

/* The station of all 255 tracks, or of all but this one. */
static void make_all_but(numbered *of, uint32_t absent)
{
    memset(of->present, 1, sizeof of->present);
    of->present[0] = 0;
    of->present[absent] = 0;
    make_numbered(of);
}

static int coordinate_says(const numbered *of, uint32_t number,
                           uint32_t position, uint32_t due)
{
    ind_coordinate found = ind_coordinate_at(of->file.bytes, of->file.length,
                                             number, position);
    int32_t at = due == 0 ? (int32_t)number : 0;
    return says(found.answer, due, 0) && found.latitude == at
        && found.longitude == -at;
}

/* A number's coordinate at the start, at the end and one beyond it: 11 for
 * each where there is no such track. */
static int number_found(const numbered *of, uint32_t number)
{
    uint32_t end = NUMBERED_END * number;
    int present = number < NUMBERED && of->present[number];
    return coordinate_says(of, number, 0, present ? 0 : 11)
        && coordinate_says(of, number, end, present ? 0 : 11)
        && coordinate_says(of, number, end + 1, present ? 12 : 11);
}

/* So many numbers from one on. */
static int numbers_found(const numbered *of, uint32_t from, uint32_t count)
{
    for (uint32_t i = 0; i < count; i++)
        if (!number_found(of, from + i))
            return 0;
    return 1;
}

/* Of one track alone, each number in turn: all numbers. */
static int lone_found(void)
{
    static numbered of;
    int right = 1;
    for (uint32_t number = 1; number < NUMBERED; number++) {
        memset(of.present, 0, sizeof of.present);
        of.present[number] = 1;
        make_numbered(&of);
        right = right && numbers_found(&of, 0, NUMBERED);
    }
    return right;
}

/* Of all tracks but one, each number in turn: it and those beside it. */
static int gap_found(void)
{
    static numbered of;
    int right = 1;
    for (uint32_t number = 1; number < NUMBERED; number++) {
        make_all_but(&of, number);
        right = right && numbers_found(&of, number - 1, 3);
    }
    return right;
}

static void lookup_examples(void)
{
    static numbered of;
    make_edges(&of);
    ensure(numbers_found(&of, 0, NUMBERED),
           "of tracks 1, 63, 64, 127, 128, 191, 192 and 255, numbers 0 to "
           "255");
    ensure(numbers_found(&of, 256, 768) && numbers_found(&of, 0x10000, 256)
               && numbers_found(&of, 0x80000000, 256)
               && numbers_found(&of, 0xFFFFFF00, 256),
           "numbers above 255 are absent");
    make_all_but(&of, 0);
    ensure(numbers_found(&of, 0, 2 * NUMBERED),
           "of all 255 tracks, numbers 0 to 511");
    ensure(lone_found(), "of one track alone, whichever, numbers 0 to 255");
    ensure(gap_found(),
           "of all tracks but one, whichever, it and those beside it");
}

/* A record of a yard that names a track, the leg by which it does, and where
 * the header names it too; 0 where it does not. */
typedef struct {
    stored *yard;
    ind_object record;
    uint32_t leg;
    uint32_t entry;
    const char *sentence;
} stand_example;

/* The pair once the record stands on this track at this position. */
static int stand_gives(const stand_example *example, const numbered *of,
                       uint32_t number, uint32_t position, uint32_t due)
{
    stored *yard = example->yard;
    stand at = stand_of(example->record, example->leg);
    uint32_t place = due == 11 ? at.track : due == 12 ? at.position : 0;
    ind_answer answer;
    yard->bytes[at.track] = (uint8_t)number;
    if (example->entry != 0)
        yard->bytes[example->entry + IND_ENTRY_TRACK] = (uint8_t)number;
    if (at.position != 0)
        put_four(yard->bytes, at.position, position);
    seal(yard);
    answer = ind_pair(of->file.bytes, of->file.length, yard->bytes,
                      yard->length);
    return says(answer, due, place) && answer.file == (due == 0 ? 0 : 2);
}

/* The record on each track in turn, at its end and one beyond it; then at the
 * start of track 1 again. */
static int stand_right(const stand_example *example, const numbered *of)
{
    int positioned = stand_of(example->record, example->leg).position != 0;
    int right = 1;
    for (uint32_t number = 1; number < NUMBERED; number++) {
        uint32_t end = NUMBERED_END * number;
        int present = of->present[number];
        right = right
            && stand_gives(example, of, number, end, present ? 0 : 11)
            && stand_gives(example, of, number, end + 1,
                           !present ? 11 : positioned ? 12 : 0);
    }
    return stand_gives(example, of, 1, 0, 0) && right;
}

/* Each kind of record, among others that stay on track 1. */
static void stand_examples(void)
{
    static stored y, g, n;
    static numbered of_eight, of_all;
    static const stand_example stands[] = {
        { &n, { IND_START_BOUNDARY, N_START }, 0, N_START_ENTRY,
          "a start boundary on each track" },
        { &n, { IND_END_BOUNDARY, N_END }, 0, N_END_ENTRY,
          "an end boundary on each track" },
        { &y, { IND_TURNOUT, Y_TURNOUT }, 0, 0,
          "a turnout's tip on each track" },
        { &y, { IND_TURNOUT, Y_TURNOUT }, 1, 0,
          "a turnout's normal leg on each track" },
        { &y, { IND_TURNOUT, Y_TURNOUT }, 2, 0,
          "a turnout's reverse leg on each track" },
        { &g, { IND_BALISE, G_ONE }, 0, 0, "a balise on each track" },
        { &g, { IND_BALISE, G_FOUR }, 0, 0, "a member on each track" },
        { &n, { IND_SIGNAL, N_SIGNAL }, 0, 0, "a signal on each track" },
        { &n, { IND_JOINT, N_JOINT }, 0, 0, "a joint on each track" },
        { &n, { IND_SIDING, N_SIDING }, 0, 0, "a siding on each track" }
    };
    make_y(&y, Y_SECOND_END);
    make_g(&g);
    make_n(&n);
    make_edges(&of_eight);
    make_all_but(&of_all, 0);
    for (size_t i = 0; i < sizeof stands / sizeof *stands; i++)
        ensure(stand_right(&stands[i], &of_eight)
                   && stand_right(&stands[i], &of_all),
               stands[i].sentence);
}

/* Y with a station name of so many bytes and zeros after them. */
static int name_prints(const uint8_t *name, size_t size, const char *due)
{
    static stored y;
    make_y(&y, Y_SECOND_END);
    put_opening(y.bytes, IND_X2_TYPE, 7, 312);
    memset(y.bytes + IND_STATION_NAME_PLACE, 0, IND_STATION_NAME_SIZE);
    memcpy(y.bytes + IND_STATION_NAME_PLACE, name, size);
    seal(&y);
    return answer_prints(ASK_HEADER2, &y, due);
}

static void header2_examples(void)
{
    /* Table 5's example, and one that fills the field. */
    static const uint8_t table_5[] = { 0xB1, 0xB1, 0xBE, 0xA9, 0xC4, 0xCF };
    static const uint8_t full[] = { 0x81, 0x40, 0xFE, 0xFE, 0x81, 0x7E,
                                    0x81, 0x80, 0xB1, 0xB1, 0xBE, 0xA9,
                                    0xC4, 0xCF, 0xFE, 0x40 };
    static stored y;
    make_y(&y, Y_SECOND_END);
    ensure(answer_prints(ASK_HEADER2, &y, "answer 0 0\n"
                                          "structure 1\n"
                                          "data 1\n"
                                          "station 1\n"
                                          "name b1b1\n"),
           "header of Y");
    ensure(answer_prints(ASK_HEADER1, &y, "answer 3 0\n"),
           "Y is of the wrong type for header1");
    make_y(&y, Y_TURNOUT);
    ensure(answer_prints(ASK_HEADER2, &y, "answer 8 99\n"),
           "header2 first gives the X.2's fault");
    ensure(name_prints(table_5, sizeof table_5, "answer 0 0\n"
                                                "structure 1\n"
                                                "data 7\n"
                                                "station 312\n"
                                                "name b1b1bea9c4cf\n"),
           "the station name of table 5");
    ensure(name_prints(full, sizeof full,
                       "answer 0 0\n"
                       "structure 1\n"
                       "data 7\n"
                       "station 312\n"
                       "name 8140fefe817e8180b1b1bea9c4cffe40\n"),
           "a station name without closing zeros");
}

static void list_example(void)
{
    static stored y;
    make_y(&y, Y_SECOND_END);
    ensure(list_prints(&y, "verdict 0 0\n"
                           "from 44 routes 2 walks 4\n"
                           "44 80 56\n"
                           "44 80 68\n"),
           "yardlist on Y");
    make_y(&y, Y_TURNOUT);
    ensure(list_prints(&y, "verdict 8 99\n"),
           "after a refused verdict nothing follows");
    make_g(&y);
    ensure(list_prints(&y, "verdict 0 0\n"
                           "from 41 routes 1 walks 3\n"
                           "41 65 53\n"),
           "walks meet number 1 of a group alone");
    make_line(&y, 161);
    ensure(list_prints(&y, "verdict 0 0\n"
                           "from 41 routes 0 walks 160\n"),
           "yardlist on a line of 161 objects");
}

int command_self(int count, char **words)
{
    if (count > 1) {
        fputs("independent: self takes [EXAMPLES]\n", stderr);
        return RUN_MISUSED;
    }
    checksum_examples();
    increment_examples();
    coordinate_examples();
    route_examples();
    line_examples();
    fixed_listing_examples();
    link_examples();
    sequence_examples();
    member_link_examples();
    name_examples();
    name_line_examples();
    offset_examples();
    track_example();
    header1_examples();
    header2_examples();
    version_examples();
    high_examples();
    height_examples();
    high_question_examples();
    lookup_examples();
    stand_examples();
    list_example();
    plan_examples();
    backwards_examples();
    degrees_examples();
    ahead_examples();
    load_examples();
    if (count == 1)
        depot_examples(words[0]);
    printf("%lu passed, %lu failed\n", passed, failed);
    return failed == 0 ? RUN_WELL : RUN_BAD;
}
