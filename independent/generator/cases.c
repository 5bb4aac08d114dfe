/* The generator's cases: right, damaged, joined and random files, and good
 * and bad indexes, offsets and positions. */
#include "cases.h"

#include <string.h>

#include "ahead.h"
#include "core/core.h"
#include "damage.h"
#include "load.h"
#include "make.h"
#include "questions.h"

/* The seeds of two cases that follow each other are so far apart. */
#define BETWEEN_CASES UINT64_C(0x2545F491)

/* Large files are rare; each costs as much as a hundred others. */
static size_wanted some_size(source *from, const wanted *kinds)
{
    if (kinds->small)
        return SIZE_SMALL;
    if (once_in(from, 120))
        return SIZE_LARGE;
    return once_in(from, 5) ? SIZE_MIDDLE : SIZE_SMALL;
}

uint32_t some_station(source *from)
{
    static const uint32_t values[] = { 1, 2, 255, 256, 65535 };
    return once_in(from, 2) ? ONE_OF(from, values) : 1 + draw(from, 65535);
}

/* A right X.1. */
static void right_geography(source *from, const wanted *kinds, stored *file)
{
    size_wanted size = some_size(from, kinds);
    uint32_t station = some_station(from);
    make_geography(from, size, station, file);
}

/* A right X.1 in which tracks are looked up by their numbers. */
static void numbered_geography(source *from, size_wanted size,
                               uint32_t station, stored *file)
{
    if (once_in(from, 2))
        make_geography(from, size, station, file);
    else
        make_edge_geography(from, size, station, file);
}

/* A right X.2. */
static void right_application(source *from, const wanted *kinds, stored *file)
{
    static yard made;
    size_wanted size = some_size(from, kinds);
    uint32_t station = some_station(from);
    make_yard(from, size, station, &made);
    lay_out(&made, NULL, file);
}

/* A right file: an X.2, or an X.1. */
static void right_file(source *from, const wanted *kinds, int application,
                       stored *file)
{
    if (application)
        right_application(from, kinds, file);
    else
        right_geography(from, kinds, file);
}

/* A place to cut a file at: a record's start, the header's end or any. */
static uint32_t some_cut(source *from, const stored *file)
{
    ind_layout layout;
    uint32_t end = file->length - IND_CHECKSUM_SIZE;
    if (once_in(from, 4)
        || ind_application_layout(file->bytes, end, &layout).number
            != IND_ACCEPTED)
        return draw(from, end);
    if (once_in(from, 4))
        return layout.header;
    return some_start(from, file);
}

/* The head of one data version with the tail of another in which one joint
 * was added: cut at one place of both, or where the same object stands. */
static void joined_application(source *from, const wanted *kinds,
                               stored *file)
{
    static yard made;
    static stored versions[2];
    size_wanted size = some_size(from, kinds);
    uint32_t station = some_station(from);
    uint32_t head = draw(from, 2);
    const stored *tail = &versions[1 - head];
    uint32_t cut, resumed;
    make_yard(from, size, station, &made);
    lay_out(&made, NULL, &versions[0]);
    add_joint(from, &made);
    lay_out(&made, NULL, &versions[1]);
    cut = some_cut(from, &versions[head]);
    resumed = cut;
    if (once_in(from, 2))
        resumed = head == 0 ? cut + IND_JOINT_SIZE : cut - IND_JOINT_SIZE;
    if (resumed > tail->length)
        resumed = cut < tail->length ? cut : tail->length;
    memcpy(file->bytes, versions[head].bytes, cut);
    file->length = cut + tail->length - resumed;
    memcpy(file->bytes + cut, tail->bytes + resumed, tail->length - resumed);
    if (!once_in(from, 4))
        seal(file);
}

/* One or two fields changed, or the layout, or both. */
static void damage_aimed(source *from, int application, stored *file)
{
    /* Of ten, so many with one field alone, with two, with the layout. */
    enum { ONE_FIELD = 6, TWO_FIELDS = 8, LAYOUT_FROM = 7 };
    uint32_t choice = draw(from, 10);
    uint32_t pokes = choice < ONE_FIELD ? 1 : choice < TWO_FIELDS ? 2 : 0;
    while (pokes-- > 0) {
        if (application)
            poke_application(from, file);
        else
            poke_geography(from, file);
    }
    if (choice < LAYOUT_FROM)
        return;
    if (application)
        break_application(from, file);
    else
        break_geography(from, file);
}

void spoil(source *from, int application, stored *file)
{
    /* Of a hundred, up to which number each way is taken. */
    enum { AIMED = 72, FLIPPED = 84, CUT = 92, TOO_LONG = 94, RANDOM = 97 };
    uint32_t choice = draw(from, 100);
    if (choice < AIMED)
        damage_aimed(from, application, file);
    else if (choice < FLIPPED)
        flip_bits(from, file);
    else if (choice < CUT)
        change_length(from, file);
    else if (choice < TOO_LONG)
        over_long(from, file);
    else if (choice < RANDOM)
        random_bytes(from, file);
    else
        swap_type(file);
    if (!once_in(from, 25))
        seal(file);
}

static void ask_verdict(source *from, const wanted *kinds, asked *ask)
{
    int application = ask->question == ASK_X2;
    stored *file = &ask->files[0];
    if (application && once_in(from, 8)) {
        joined_application(from, kinds, file);
        return;
    }
    right_file(from, kinds, application, file);
    if (!once_in(from, 4))
        spoil(from, application, file);
}

/* A station: two right files that agree, then perhaps damage. */
static void ask_pair(source *from, const wanted *kinds, asked *ask)
{
    static yard made;
    uint32_t station = some_station(from);
    size_wanted size = some_size(from, kinds);
    size_wanted other_size = some_size(from, kinds);
    /* Of a hundred, up to which number each damage is done. */
    enum { DISAGREEING = 55, X1_FROM = 45, X1_TO = 60, X2_FROM = 50,
           X2_TO = 75 };
    uint32_t choice = draw(from, 100);
    uint32_t damages = 1 + draw(from, 2);
    numbered_geography(from, size, station, &ask->files[0]);
    make_yard(from, other_size, station, &made);
    lay_out(&made, &ask->files[0], &ask->files[1]);
    if (choice < DISAGREEING) {
        while (damages-- > 0)
            damage_pair(from, &ask->files[0], &ask->files[1]);
        seal(&ask->files[1]);
    }
    if (choice >= X1_FROM && choice < X1_TO)
        spoil(from, 0, &ask->files[0]);
    if (choice >= X2_FROM && choice < X2_TO)
        spoil(from, 1, &ask->files[1]);
}

/* Every shape, but among small yards few as long as the limits of routes. */
static yard_shape some_ahead_shape(source *from, size_wanted size)
{
    yard_shape shape = (yard_shape)draw(from, YARD_AHEAD);
    int long_ways = shape == YARD_LONG_LINE || shape == YARD_LONG_WAYS;
    if (once_in(from, 4)
        || (long_ways && size == SIZE_SMALL && !once_in(from, 8)))
        return YARD_AHEAD;
    return shape;
}

/* A yard in which something lies ahead, and where its first object starts: 0
 * where that is no matter. */
static uint32_t ahead_yard(source *from, size_wanted size, uint32_t station,
                           const stored *geography, stored *file)
{
    static yard made;
    yard_shape shape = some_ahead_shape(from, size);
    int any = size == SIZE_LARGE || once_in(from, 8);
    if (any)
        make_yard(from, size, station, &made);
    else
        make_route_yard(from, shape, size, station, &made);
    lay_out(&made, geography, file);
    return shape == YARD_AHEAD && !any ? made.objects[1].start : 0;
}

/* A station: two right files that agree, what is asked of them, and then now
 * and then damage. */
static void ask_ahead(source *from, const wanted *kinds, asked *ask)
{
    stored *geography = &ask->files[0], *file = &ask->files[1];
    uint32_t station = some_station(from), first;
    size_wanted size = some_size(from, kinds);
    size_wanted other_size = some_size(from, kinds);
    if (once_in(from, 8))
        make_edge_geography(from, size, station, geography);
    else
        make_geography(from, size, station, geography);
    first = ahead_yard(from, other_size, station, geography, file);
    share_numbers(from, file);
    some_way_ahead(from, first, ask);
    if (once_in(from, 24)) {
        damage_pair(from, geography, file);
        seal(file);
    }
    if (once_in(from, 36))
        spoil(from, 0, geography);
    if (once_in(from, 24))
        spoil(from, 1, file);
}

/* A right file and its next data version: an X.2 with one joint more, or a file
 * in which the version alone is another. */
static void two_versions(source *from, const wanted *kinds, int application,
                         stored *one, stored *next)
{
    static yard made;
    uint32_t version;
    if (application && once_in(from, 2)) {
        size_wanted size = some_size(from, kinds);
        uint32_t station = some_station(from);
        make_yard(from, size, station, &made);
        lay_out(&made, NULL, one);
        add_joint(from, &made);
        lay_out(&made, NULL, next);
        return;
    }
    right_file(from, kinds, application, one);
    version = ind_two(one->bytes, IND_DATA_VERSION_PLACE);
    next->length = one->length;
    memcpy(next->bytes, one->bytes, one->length);
    put_two(next->bytes, IND_DATA_VERSION_PLACE,
            version % IND_LARGEST_OF_TWO + 1);
    seal(next);
}

/* One data version and the other, or one file, damaged in one case of four:
 * there is no other version then. What is damaged keeps its first fields and
 * its last. */
static void ask_load(source *from, const wanted *kinds, asked *ask)
{
    enum { LEAST = IND_STATION_PLACE + IND_OFFSET_SIZE + IND_CHECKSUM_SIZE };
    int application = (int)draw(from, 2), first = (int)draw(from, 2);
    stored *file = &ask->files[0], *other = &ask->files[1];
    sent_files sent = { file, NULL };
    if (once_in(from, 4)) {
        two_versions(from, kinds, application, file, other);
        sent.file = &ask->files[first];
        sent.other = &ask->files[1 - first];
    } else {
        right_file(from, kinds, application, file);
        if (once_in(from, 3))
            spoil(from, application, file);
        while (file->length < LEAST)
            file->bytes[file->length++] = 0;
    }
    some_calls(from, &sent, ask);
    file->length = other->length = 0;
    for (int i = LOAD_ROOM + 1; i < NUMBERS; i++)
        ask->numbers[i] = once_in(from, 4) ? (uint32_t)draw_bits(from) : 0;
    if (once_in(from, 8))
        random_bytes(from, other);
}

static void ask_of_geography(source *from, const wanted *kinds, asked *ask)
{
    stored *file = &ask->files[0];
    right_geography(from, kinds, file);
    if (ask->question == ASK_TRACK)
        ask->numbers[0] = some_track_index(from, file);
    else
        some_point_index(from, file, ask->numbers);
    if (once_in(from, 5))
        spoil(from, 0, file);
}

static void ask_coordinate(source *from, const wanted *kinds, asked *ask)
{
    stored *file = &ask->files[0];
    size_wanted size = some_size(from, kinds);
    uint32_t station = some_station(from);
    numbered_geography(from, size, station, file);
    some_position(from, file, ask->numbers);
    if (once_in(from, 5))
        spoil(from, 0, file);
}

static void ask_record(source *from, const wanted *kinds, asked *ask)
{
    stored *file = &ask->files[0];
    right_application(from, kinds, file);
    ask->numbers[0] = some_offset(from, file);
    if (once_in(from, 5))
        spoil(from, 1, file);
}

static void ask_routes(source *from, const wanted *kinds, asked *ask)
{
    static yard made;
    stored *file = &ask->files[0];
    yard_shape shape = (yard_shape)draw(from, YARD_SHAPES);
    size_wanted size = SIZE_SMALL;
    uint32_t station = some_station(from);
    if (!kinds->small && once_in(from, 3)) {
        size = SIZE_MIDDLE;
        if (once_in(from, 3))
            shape = once_in(from, 2) ? YARD_LONG_WAYS : YARD_DIAMONDS;
    }
    make_route_yard(from, shape, size, station, &made);
    lay_out(&made, NULL, file);
    some_listing(from, file,
                 shape == YARD_LONG_LINE || shape == YARD_LONG_WAYS,
                 ask->numbers);
    if (once_in(from, 12))
        spoil(from, 1, file);
}

/* A right or a damaged file, now and then of the other type; the numbers,
 * which no header is asked by, are any. */
static void ask_header(source *from, const wanted *kinds, asked *ask)
{
    int application = ask->question == ASK_HEADER2;
    stored *file = &ask->files[0];
    if (once_in(from, 16))
        application = !application;
    right_file(from, kinds, application, file);
    if (once_in(from, 3))
        spoil(from, application, file);
    for (int i = 0; i < NUMBERS; i++)
        ask->numbers[i] = (uint32_t)draw_bits(from);
}

/* Whether cases of a question are wanted; those of two that have the same are
 * made as the first's. */
static int wants(const wanted *kinds, uint32_t question)
{
    if (question != first_of(question))
        return 0;
    return kinds->asked_for[question] || kinds->asked_for[second_of(question)];
}

static uint32_t some_question(source *from, const wanted *kinds)
{
    uint32_t chosen;
    do
        chosen = (uint32_t)draw_between(from, ASK_X1, QUESTIONS - 1);
    while (!wants(kinds, chosen));
    return chosen;
}

/* By which of two questions a case of the first is asked: drawn last, so that
 * the case is the same by both. */
static uint32_t some_of_two(source *from, const wanted *kinds,
                            uint32_t question)
{
    uint32_t second = second_of(question);
    if (!kinds->asked_for[second])
        return question;
    return kinds->asked_for[question] && once_in(from, 2) ? question : second;
}

source source_of(uint64_t seed, uint64_t index)
{
    source seeds = source_from(seed);
    return source_from(draw_bits(&seeds) + index * BETWEEN_CASES);
}

void build_case(const generation *run, uint64_t index, asked *ask)
{
    source from = source_of(run->seed, index);
    memset(ask->numbers, 0, sizeof ask->numbers);
    ask->files[0].length = 0;
    ask->files[1].length = 0;
    ask->question = some_question(&from, &run->kinds);
    switch (ask->question) {
    case ASK_X1:
    case ASK_X1_VERSION_1:
    case ASK_X2: ask_verdict(&from, &run->kinds, ask); break;
    case ASK_PAIR: ask_pair(&from, &run->kinds, ask); break;
    case ASK_COORDINATE: ask_coordinate(&from, &run->kinds, ask); break;
    case ASK_RECORD: ask_record(&from, &run->kinds, ask); break;
    case ASK_ROUTES: ask_routes(&from, &run->kinds, ask); break;
    case ASK_LOAD: ask_load(&from, &run->kinds, ask); break;
    case ASK_AHEAD: ask_ahead(&from, &run->kinds, ask); break;
    case ASK_HEADER1:
    case ASK_HEADER2: ask_header(&from, &run->kinds, ask); break;
    default: ask_of_geography(&from, &run->kinds, ask); break;
    }
    ask->question = some_of_two(&from, &run->kinds, ask->question);
}
