/* Right files of a wanted size, to measure with. */
#include "files.h"

#include <string.h>

#include "core/core.h"
#include "generator/make.h"

enum {
    VERSION = 1,
    STATION = 1,
    POINTS = 20,
    TRACKS_MOST = 255,
    /* From each point to the next, on a slight bend. */
    STEP = 2000,
    NORTH = 7,
    EAST = 11,
    HEADING = 1200,
    /* Of a point; the next is so much lower. */
    HEIGHT = 300,
    FALL = 3,
    /* Where the first track starts, and how far apart tracks are. */
    LATITUDE = 164880000,
    LONGITUDE = 455780000,
    APART = 400,
    MESSAGE = 40
};

/* ---- X.1 */

static void put_point(uint8_t *point, uint32_t index)
{
    put_four(point, IND_POINT_POSITION, STEP * index);
    put_three(point, IND_POINT_LATITUDE, NORTH * index);
    put_three(point, IND_POINT_LONGITUDE, EAST * index);
    put_two(point, IND_POINT_HEADING, HEADING);
    point[IND_POINT_NEAR] = IND_LARGEST_NEAR;
}

/* A track's entry and its points. */
static void put_track(stored *file, uint32_t index, uint32_t first,
                      uint32_t points)
{
    uint8_t *entry = file->bytes + ind_track_place(index);
    uint32_t size = ind_point_size(file->bytes);
    uint32_t latitude = LATITUDE + APART * index;
    uint32_t last = points - 1;
    entry[IND_TRACK_NUMBER] = (uint8_t)(index + 1);
    entry[IND_TRACK_PROPERTY] = IND_LEAST_PROPERTY;
    put_four(entry, IND_TRACK_START_LATITUDE, latitude);
    put_four(entry, IND_TRACK_START_LONGITUDE, LONGITUDE);
    put_four(entry, IND_TRACK_END_POSITION, STEP * last);
    put_four(entry, IND_TRACK_END_LATITUDE, latitude + NORTH * last);
    put_four(entry, IND_TRACK_END_LONGITUDE, LONGITUDE + EAST * last);
    put_two(entry, IND_TRACK_FIRST_POINT, first);
    put_two(entry, IND_TRACK_LAST_POINT, first + size * last);
    for (uint32_t i = 0; i < points; i++) {
        uint8_t *point = file->bytes + first + size * i;
        put_point(point, i);
        if (ind_has_heights(file->bytes))
            put_two(point, IND_POINT_HEIGHT, HEIGHT - FALL * i);
    }
}

/* An X.1 of this structure version that has no track yet. */
static void empty_geography(uint32_t version, stored *file)
{
    memset(file, 0, sizeof *file);
    put_opening(file->bytes, IND_X1_TYPE, VERSION, STATION);
    put_two(file->bytes, IND_STRUCTURE_VERSION_PLACE, version);
}

/* So many tracks with so many points each. */
static void put_tracks(uint32_t tracks, uint32_t points, stored *file)
{
    uint32_t first = ind_track_place(tracks);
    file->bytes[IND_TRACK_COUNT_PLACE] = (uint8_t)tracks;
    for (uint32_t i = 0; i < tracks; i++) {
        put_track(file, i, first, points);
        first += ind_point_size(file->bytes) * points;
    }
    file->length = first + IND_CHECKSUM_SIZE;
    seal(file);
}

static void realistic_of(uint32_t version, uint32_t bytes, stored *file)
{
    uint32_t bare = ind_track_place(0) + IND_CHECKSUM_SIZE;
    uint32_t tracks;
    empty_geography(version, file);
    tracks = (bytes - bare)
        / (IND_TRACK_SIZE + ind_point_size(file->bytes) * POINTS);
    put_tracks(tracks < TRACKS_MOST ? tracks : TRACKS_MOST, POINTS, file);
}

/* So many tracks, with as many points as fit. */
static void fitting_tracks(uint32_t version, uint32_t tracks, uint32_t bytes,
                           stored *file)
{
    uint32_t bare = ind_track_place(tracks) + IND_CHECKSUM_SIZE;
    empty_geography(version, file);
    put_tracks(tracks,
               (bytes - bare) / (tracks * ind_point_size(file->bytes)), file);
}

void realistic_geography(uint32_t bytes, stored *file)
{
    realistic_of(IND_VERSION_1, bytes, file);
}

void realistic_heights(uint32_t bytes, stored *file)
{
    realistic_of(IND_VERSION_2, bytes, file);
}

void worst_geography(uint32_t bytes, stored *file)
{
    fitting_tracks(IND_VERSION_1, 1, bytes, file);
}

void worst_heights(uint32_t bytes, stored *file)
{
    fitting_tracks(IND_VERSION_2, 1, bytes, file);
}

/* ---- X.2 */

static uint32_t add(yard *made, ind_kind kind, uint32_t size)
{
    object *added = &made->objects[++made->count];
    memset(added, 0, sizeof *added);
    added->kind = kind;
    added->size = size;
    added->order = made->count;
    added->seed = made->count;
    return made->count;
}

/* The next plain object of a way, linked with the one before it. */
static uint32_t plain(yard *made, ind_kind kind, uint32_t size, uint32_t before,
                      uint32_t port)
{
    uint32_t next = add(made, kind, size);
    made->objects[before].links[port] = next;
    made->objects[next].links[0] = before;
    return next;
}

static void join(yard *made, uint32_t one, uint32_t port, uint32_t other,
                 uint32_t other_port)
{
    made->objects[one].links[port] = other;
    made->objects[other].links[other_port] = one;
}

static uint32_t signal_on(yard *made, uint32_t before, uint32_t port)
{
    return plain(made, IND_SIGNAL, IND_SIGNAL_SIZE, before, port);
}

static uint32_t joint_on(yard *made, uint32_t before, uint32_t port)
{
    return plain(made, IND_JOINT, IND_JOINT_SIZE, before, port);
}

/* A group of two balises with messages; others link to the first alone. */
static uint32_t balises_on(yard *made, uint32_t before)
{
    uint32_t size = IND_BALISE_PLAIN_SIZE + MESSAGE;
    uint32_t first = plain(made, IND_BALISE, size, before, 1);
    uint32_t second = add(made, IND_BALISE, size);
    made->objects[first].group_byte = 1 << IND_GROUP_COUNT_SHIFT;
    made->objects[second].group_byte = 1 << IND_GROUP_COUNT_SHIFT | 1;
    made->objects[second].first = first;
    return first;
}

/* One leg of a line: between two turnouts, a joint, a signal and a joint. */
static void leg(yard *made, uint32_t apart, uint32_t together, uint32_t port)
{
    uint32_t at = joint_on(made, apart, port);
    at = signal_on(made, at, 1);
    at = joint_on(made, at, 1);
    join(made, at, 1, together, port);
}

/* From a start boundary to an end boundary, with a loop and its siding. */
static void line(yard *made)
{
    uint32_t at = add(made, IND_START_BOUNDARY, IND_BOUNDARY_SIZE);
    uint32_t apart, together, end;
    at = joint_on(made, signal_on(made, at, 0), 1);
    at = balises_on(made, at);
    apart = add(made, IND_TURNOUT, IND_TURNOUT_SIZE);
    together = add(made, IND_TURNOUT, IND_TURNOUT_SIZE);
    join(made, at, 1, apart, FRONT);
    leg(made, apart, together, NORMAL);
    leg(made, apart, together, REVERSE);
    add(made, IND_SIDING, IND_SIDING_SIZE);
    at = joint_on(made, together, FRONT);
    at = signal_on(made, balises_on(made, at), 1);
    end = add(made, IND_END_BOUNDARY, IND_BOUNDARY_SIZE);
    join(made, at, 1, end, 0);
}

static void empty_yard(yard *made)
{
    memset(made, 0, sizeof *made);
    made->data_version = VERSION;
    made->station = STATION;
}

/* So many lines, on the tracks of an X.1 where one is given. */
static void lines(uint32_t count, const stored *given, stored *file)
{
    static yard made;
    empty_yard(&made);
    for (; count > 0; count--)
        line(&made);
    lay_out(&made, given, file);
}

/* As many lines as fit; each takes as many bytes as the second. */
static void fitting_lines(uint32_t bytes, const stored *given, stored *file)
{
    uint32_t one, more;
    lines(1, given, file);
    one = file->length;
    lines(2, given, file);
    more = file->length - one;
    lines(1 + (bytes - one) / more, given, file);
}

void realistic_application(uint32_t bytes, stored *file)
{
    fitting_lines(bytes, NULL, file);
}

void realistic_station(uint32_t bytes, stored *files)
{
    realistic_geography(bytes, &files[0]);
    fitting_lines(bytes, &files[0], &files[1]);
}

void largest_station(uint32_t bytes, stored *files)
{
    fitting_tracks(IND_VERSION_1, TRACKS_MOST, bytes, &files[0]);
    fitting_lines(bytes, &files[0], &files[1]);
}

/* An X.2 of two boundaries and nothing between them. */
enum {
    LINE_BARE = IND_START_ENTRIES_PLACE + IND_COUNT_SIZE + IND_GROUPS_SIZE
        + 2 * (IND_ENTRY_SIZE + IND_BOUNDARY_SIZE) + IND_CHECKSUM_SIZE
};

void worst_application(uint32_t bytes, stored *file)
{
    static yard made;
    uint32_t balises = (bytes - LINE_BARE) / IND_BALISE_PLAIN_SIZE;
    uint32_t at, port = 0, end;
    empty_yard(&made);
    at = add(&made, IND_START_BOUNDARY, IND_BOUNDARY_SIZE);
    for (; balises > 0; balises--) {
        at = plain(&made, IND_BALISE, IND_BALISE_PLAIN_SIZE, at, port);
        port = 1;
    }
    end = add(&made, IND_END_BOUNDARY, IND_BOUNDARY_SIZE);
    join(&made, at, port, end, 0);
    lay_out(&made, NULL, file);
}

void diamonds(uint32_t count, stored *file)
{
    static yard made;
    uint32_t at, port = 0, end;
    empty_yard(&made);
    at = add(&made, IND_START_BOUNDARY, IND_BOUNDARY_SIZE);
    for (; count > 0; count--) {
        uint32_t apart = add(&made, IND_TURNOUT, IND_TURNOUT_SIZE);
        uint32_t together = add(&made, IND_TURNOUT, IND_TURNOUT_SIZE);
        join(&made, at, port, apart, FRONT);
        join(&made, apart, NORMAL, together, NORMAL);
        join(&made, joint_on(&made, apart, REVERSE), 1, together, REVERSE);
        at = together;
        port = FRONT;
    }
    end = add(&made, IND_END_BOUNDARY, IND_BOUNDARY_SIZE);
    join(&made, at, port, end, 0);
    lay_out(&made, NULL, file);
}

/* One line of so many turnouts, on the tracks of an X.1 where one is given. */
static void forks_on(uint32_t count, const stored *given, stored *file)
{
    static yard made;
    uint32_t at, port = 0, end;
    empty_yard(&made);
    at = add(&made, IND_START_BOUNDARY, IND_BOUNDARY_SIZE);
    for (; count > 0; count--) {
        uint32_t turnout = add(&made, IND_TURNOUT, IND_TURNOUT_SIZE);
        join(&made, at, port, turnout, FRONT);
        at = turnout;
        port = NORMAL;
    }
    end = add(&made, IND_END_BOUNDARY, IND_BOUNDARY_SIZE);
    join(&made, at, port, end, 0);
    lay_out(&made, given, file);
}

void forks(uint32_t count, stored *file)
{
    forks_on(count, NULL, file);
}

void far_station(uint32_t bytes, stored *files)
{
    realistic_geography(bytes, &files[0]);
    forks_on((bytes - LINE_BARE) / IND_TURNOUT_SIZE, &files[0], &files[1]);
}
