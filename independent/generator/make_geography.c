/* Right track geographies: few and many tracks and points, extremes of every
 * range, increments of both signs, near flags both ways, half of them with
 * heights. */
#include "make.h"

#include <stddef.h>

#include "core/core.h"

enum {
    TRACK_NUMBERS = 255,
    SURVEY_STEP = 20000,
    /* In a small file, beside the two that each track has. */
    SPARE_POINTS = 100,
    /* 02's ticket 7: the numbers present are held as four words of 64. */
    WORD_NUMBERS = 64,
    ALL_WORDS = 15,
    /* So many tracks fill a file of points without heights to its last byte;
     * with heights three bytes are always left. */
    TRACKS_OF_FULL_FILE = 17
};

static int64_t clamped(int64_t value, int64_t low, int64_t high)
{
    return value < low ? low : value > high ? high : value;
}

static uint32_t track_count(source *from, size_wanted size)
{
    switch (size) {
    case SIZE_SMALL: return once_in(from, 2) ? 1 : 1 + draw(from, 4);
    case SIZE_MIDDLE:
        return once_in(from, 10) ? TRACK_NUMBERS : 1 + draw(from, 20);
    default:
        return once_in(from, 2) ? TRACKS_OF_FULL_FILE : 1 + draw(from, 60);
    }
}

/* How many points there may be, whose first stands at this place. */
static uint32_t points_left(size_wanted size, uint32_t tracks, uint32_t place,
                            uint32_t point_size)
{
    uint32_t fitting =
        (IND_LARGEST_FILE - IND_CHECKSUM_SIZE - place) / point_size;
    uint32_t few = IND_LEAST_POINTS * tracks + SPARE_POINTS;
    return size == SIZE_SMALL && few < fitting ? few : fitting;
}

/* Points for the first of so many tracks, with so many points still left. In a
 * small file too there are now and then so many that counting them by another
 * size gives another number. */
static uint32_t point_count(source *from, size_wanted size, uint32_t tracks,
                            uint32_t left)
{
    uint32_t spare = left - IND_LEAST_POINTS * tracks;
    int few = size == SIZE_SMALL && !once_in(from, 8);
    uint32_t more = draw(from, few ? 6 : 25);
    if (size == SIZE_LARGE)
        more = spare / tracks;
    else if (once_in(from, 3))
        more = 0;
    return IND_LEAST_POINTS + (more < spare ? more : spare);
}

/* Rising track numbers: the numbers left must be enough for those to come. */
static uint32_t next_number(source *from, uint32_t before, uint32_t to_come)
{
    uint32_t spare = TRACK_NUMBERS - before - to_come;
    if (once_in(from, 3))
        return before + 1;
    return before + 1 + (once_in(from, 8) ? spare : draw(from, spare + 1));
}

static const uint8_t word_edges[] = { 1,   2,   62,  63,  64,  65,
                                      126, 127, 128, 129, 190, 191,
                                      192, 193, 254, 255 };

/* Whether a number stands in one of these words, a bit for each. */
static int in_words(uint32_t number, uint32_t words)
{
    return (int)(words >> number / WORD_NUMBERS & 1);
}

/* About half of the edges of these words, at least one number; gives back how
 * many. */
static uint32_t edge_numbers(source *from, uint32_t words, uint8_t *numbers)
{
    uint32_t count = 0;
    for (uint32_t i = 0; i < sizeof word_edges; i++)
        if (in_words(word_edges[i], words) && once_in(from, 2))
            numbers[count++] = word_edges[i];
    if (count == 0)
        numbers[count++] = ONE_OF(from, word_edges);
    return count;
}

/* All numbers of these words, all but one, or all but a few; gives back how
 * many. */
static uint32_t dense_numbers(source *from, uint32_t words, uint8_t *numbers)
{
    enum { ALL_BUT_ONE = 1, ALL_BUT_A_FEW };
    uint32_t style = draw(from, 3), count = 0;
    uint32_t missing = once_in(from, 2) ? ONE_OF(from, word_edges)
                                        : 1 + draw(from, TRACK_NUMBERS);
    for (uint32_t number = 1; number <= TRACK_NUMBERS; number++) {
        int left_out = (style == ALL_BUT_ONE && number == missing)
            || (style == ALL_BUT_A_FEW && once_in(from, 30));
        if (in_words(number, words) && !left_out)
            numbers[count++] = (uint8_t)number;
    }
    return count;
}

static int32_t start_coordinate(source *from, int32_t limit)
{
    switch (draw(from, 6)) {
    case 0: return limit;
    case 1: return -limit;
    case 2: return 0;
    case 3: return limit - (int32_t)draw(from, IND_INCREMENT_LARGEST);
    default: return (int32_t)draw_between(from, -limit, limit);
    }
}

/* The next increment after one, kept where start plus increment is in range. */
static int32_t next_increment(source *from, int style, int32_t before,
                              int32_t start, int32_t limit)
{
    int64_t low = clamped(-(int64_t)limit - start, IND_INCREMENT_LEAST, 0);
    int64_t high = clamped((int64_t)limit - start, 0, IND_INCREMENT_LARGEST);
    int64_t wanted = before;
    switch (style) {
    case 0: break;
    case 1: wanted += draw_between(from, -3, 3); break;
    case 2: wanted += draw_between(from, -9000, 9000); break;
    case 3: wanted = once_in(from, 2) ? low : high; break;
    default: wanted = draw_between(from, low, high); break;
    }
    return (int32_t)clamped(wanted, low, high);
}

static int32_t heading(source *from)
{
    switch (draw(from, 5)) {
    case 0: return IND_HEADING_LIMIT;
    case 1: return -IND_HEADING_LIMIT;
    case 2: return (int32_t)draw_between(from, -IND_HEADING_LIMIT,
                                         IND_HEADING_LIMIT);
    default: return 0;
    }
}

uint32_t some_height(source *from)
{
    static const int32_t edges[] = { 0, 1, -1, INT16_MIN, INT16_MAX };
    int32_t height = once_in(from, 2)
        ? ONE_OF(from, edges)
        : (int32_t)draw_between(from, INT16_MIN, INT16_MAX);
    return (uint32_t)height & IND_LARGEST_OF_TWO;
}

/* The largest step from point to point in a track of so many points. */
static uint32_t largest_step(source *from, uint32_t points)
{
    switch (draw(from, 4)) {
    case 0: return 1;
    case 1: return 4;
    case 2: return SURVEY_STEP;
    default: return IND_LARGEST_POSITION / points;
    }
}

typedef struct {
    int style[2];
    int32_t start[2];
    int32_t increment[2];
    uint32_t step;
    uint32_t position;
    int far;
    uint32_t point_size;
} track_draft;

static void put_point(source *from, const track_draft *draft, uint8_t *point)
{
    put_four(point, IND_POINT_POSITION, draft->position);
    put_three(point, IND_POINT_LATITUDE, (uint32_t)draft->increment[0]);
    put_three(point, IND_POINT_LONGITUDE, (uint32_t)draft->increment[1]);
    put_two(point, IND_POINT_HEADING, (uint32_t)heading(from));
    point[IND_POINT_NEAR] = (uint8_t)draw(from, 2);
    if (draft->point_size == IND_POINT_SIZE_2)
        put_two(point, IND_POINT_HEIGHT, some_height(from));
}

static void next_point(source *from, track_draft *draft, int last)
{
    draft->increment[0] =
        next_increment(from, draft->style[0], draft->increment[0],
                       draft->start[0], IND_LATITUDE_LIMIT);
    draft->increment[1] =
        next_increment(from, draft->style[1], draft->increment[1],
                       draft->start[1], IND_LONGITUDE_LIMIT);
    draft->position += 1 + draw(from, draft->step);
    if (last && draft->far)
        draft->position = IND_LARGEST_POSITION;
}

static void put_points(source *from, track_draft *draft, uint8_t *first,
                       uint32_t points)
{
    for (uint32_t i = 0; i < points; i++) {
        if (i > 0)
            next_point(from, draft, i + 1 == points);
        put_point(from, draft, first + draft->point_size * i);
    }
    first[IND_POINT_NEAR] = first[draft->point_size + IND_POINT_NEAR];
}

static void put_track(source *from, stored *file, uint32_t track,
                      uint32_t number, uint32_t first, uint32_t points)
{
    uint8_t *entry = file->bytes + track;
    track_draft draft = { { 0, 0 }, { 0, 0 }, { 0, 0 }, 0, 0, 0, 0 };
    draft.style[0] = (int)draw(from, 5);
    draft.style[1] = (int)draw(from, 5);
    draft.start[0] = start_coordinate(from, IND_LATITUDE_LIMIT);
    draft.start[1] = start_coordinate(from, IND_LONGITUDE_LIMIT);
    draft.step = largest_step(from, points);
    draft.far = once_in(from, 4);
    draft.point_size = ind_point_size(file->bytes);
    put_points(from, &draft, file->bytes + first, points);
    entry[IND_TRACK_NUMBER] = (uint8_t)number;
    entry[IND_TRACK_PROPERTY] =
        (uint8_t)draw_between(from, IND_LEAST_PROPERTY, IND_LARGEST_PROPERTY);
    put_four(entry, IND_TRACK_START_POSITION, IND_START_POSITION);
    put_four(entry, IND_TRACK_START_LATITUDE, (uint32_t)draft.start[0]);
    put_four(entry, IND_TRACK_START_LONGITUDE, (uint32_t)draft.start[1]);
    put_four(entry, IND_TRACK_END_POSITION, draft.position);
    put_four(entry, IND_TRACK_END_LATITUDE,
             (uint32_t)(draft.start[0] + draft.increment[0]));
    put_four(entry, IND_TRACK_END_LONGITUDE,
             (uint32_t)(draft.start[1] + draft.increment[1]));
    put_two(entry, IND_TRACK_FIRST_POINT, first);
    put_two(entry, IND_TRACK_LAST_POINT,
            first + draft.point_size * (points - 1));
}

static void put_header(source *from, uint32_t station, uint32_t tracks,
                       uint8_t *bytes)
{
    uint32_t version = once_in(from, 4) ? 65535 : 1 + draw(from, 300);
    put_opening(bytes, IND_X1_TYPE, version, station);
    if (once_in(from, 2))
        put_two(bytes, IND_STRUCTURE_VERSION_PLACE, IND_VERSION_2);
    bytes[IND_TRACK_COUNT_PLACE] = (uint8_t)tracks;
}

/* So many tracks with these numbers, or any that rise where there are none. */
static void put_tracks(source *from, size_wanted size, uint32_t station,
                       uint32_t tracks, const uint8_t *numbers, stored *file)
{
    uint32_t place = ind_track_place(tracks);
    uint32_t number = 0;
    uint32_t point_size, left;
    put_header(from, station, tracks, file->bytes);
    point_size = ind_point_size(file->bytes);
    left = points_left(size, tracks, place, point_size);
    for (uint32_t i = 0; i < tracks; i++) {
        uint32_t points = point_count(from, size, tracks - i, left);
        number = numbers == NULL ? next_number(from, number, tracks - i)
                                 : numbers[i];
        put_track(from, file, ind_track_place(i), number, place, points);
        place += point_size * points;
        left -= points;
    }
    file->length = place + IND_CHECKSUM_SIZE;
    seal(file);
}

void make_geography(source *from, size_wanted size, uint32_t station,
                    stored *file)
{
    put_tracks(from, size, station, track_count(from, size), NULL, file);
}

void make_edge_geography(source *from, size_wanted size, uint32_t station,
                         stored *file)
{
    uint8_t numbers[TRACK_NUMBERS];
    uint32_t words = 1 + draw(from, ALL_WORDS);
    int dense = once_in(from, size == SIZE_SMALL ? 50 : 3);
    uint32_t tracks;
    if (dense && once_in(from, 2))
        words = ALL_WORDS;
    tracks = dense ? dense_numbers(from, words, numbers)
                   : edge_numbers(from, words, numbers);
    put_tracks(from, size, station, tracks, numbers, file);
}
