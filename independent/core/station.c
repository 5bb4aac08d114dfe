/* 01, 'The pair': X.1's fault, X.2's fault, the stations, then each record's
 * tracks and positions in stored order. */
#include "station.h"

#include "application.h"
#include "geography.h"
#include "opening.h"

enum {
    TRACK_NUMBERS = 256
};

/* For each track number how many positions its track has, from 0 to its end;
 * 0 where there is no such track. */
typedef struct {
    uint32_t positions[TRACK_NUMBERS];
} station;

static void find_tracks(const uint8_t *x1, station *known)
{
    for (uint32_t number = 0; number < TRACK_NUMBERS; number++)
        known->positions[number] = 0;
    for (uint32_t i = 0; i < ind_tracks(x1); i++) {
        uint32_t track = ind_track_place(i);
        known->positions[x1[track + IND_TRACK_NUMBER]] =
            ind_four(x1, track + IND_TRACK_END_POSITION) + 1;
    }
}

static ind_answer in_x2(uint32_t number, uint32_t place)
{
    ind_answer answer = { number, place, IND_FILE_X2 };
    return answer;
}

/* A record's position stands on its track. */
static inline int stands(const station *known, const uint8_t *record,
                         uint32_t track, uint32_t position)
{
    return ind_four(record, position) < known->positions[record[track]];
}

/* Why a record's position does not stand on its track: 11 before 12. */
static ind_answer not_standing(const station *known, const uint8_t *x2,
                               uint32_t start, uint32_t track,
                               uint32_t position)
{
    return known->positions[x2[start + track]] == 0
        ? in_x2(IND_NO_TRACK, start + track)
        : in_x2(IND_BEYOND_END, start + position);
}

/* The records of a kind of one position, whose track and position stand at
 * these places in each. */
static inline ind_answer kind_answer(const station *known, const uint8_t *x2,
                                     const ind_layout *layout, ind_kind kind,
                                     uint32_t track, uint32_t position)
{
    size_t to = layout->to[kind];
    size_t start = layout->from[kind];
    while (start < to) {
        const uint8_t *record = x2 + start;
        if (!stands(known, record, track, position))
            return not_standing(known, x2, (uint32_t)start, track, position);
        start += kind == IND_BALISE ? record[IND_BALISE_SIZE_BYTE]
                                    : ind_fixed_size(kind);
    }
    return ind_says(IND_ACCEPTED, 0);
}

/* A turnout's positions: tip with front, normal, reverse. */
static ind_answer turnouts_answer(const station *known, const uint8_t *x2,
                                  const ind_layout *layout)
{
    static const struct {
        uint32_t track;
        uint32_t position;
    } legs[] = {
        { IND_TURNOUT_FRONT_TRACK, IND_TURNOUT_TIP_POSITION },
        { IND_TURNOUT_NORMAL_TRACK, IND_TURNOUT_NORMAL_POSITION },
        { IND_TURNOUT_REVERSE_TRACK, IND_TURNOUT_REVERSE_POSITION }
    };
    for (uint32_t start = layout->from[IND_TURNOUT];
         start < layout->to[IND_TURNOUT]; start += IND_TURNOUT_SIZE)
        for (uint32_t i = 0; i < sizeof legs / sizeof *legs; i++)
            if (!stands(known, x2 + start, legs[i].track, legs[i].position))
                return not_standing(known, x2, start, legs[i].track,
                                    legs[i].position);
    return ind_says(IND_ACCEPTED, 0);
}

/* A siding has a track and no position. */
static ind_answer sidings_answer(const station *known, const uint8_t *x2,
                                 const ind_layout *layout)
{
    for (uint32_t start = layout->from[IND_SIDING];
         start < layout->to[IND_SIDING]; start += IND_SIDING_SIZE)
        if (known->positions[x2[start + IND_SIDING_TRACK]] == 0)
            return in_x2(IND_NO_TRACK, start + IND_SIDING_TRACK);
    return ind_says(IND_ACCEPTED, 0);
}

/* Both files are right and of one station. */
static ind_answer records_answer(const uint8_t *x1, const uint8_t *x2,
                                 const ind_layout *layout)
{
    station known;
    ind_answer answer;
    find_tracks(x1, &known);
    answer = kind_answer(&known, x2, layout, IND_START_BOUNDARY,
                         IND_BOUNDARY_TRACK, IND_BOUNDARY_POSITION);
    if (answer.number == IND_ACCEPTED)
        answer = kind_answer(&known, x2, layout, IND_END_BOUNDARY,
                             IND_BOUNDARY_TRACK, IND_BOUNDARY_POSITION);
    if (answer.number == IND_ACCEPTED)
        answer = turnouts_answer(&known, x2, layout);
    if (answer.number == IND_ACCEPTED)
        answer = kind_answer(&known, x2, layout, IND_BALISE,
                             IND_BALISE_TRACK, IND_BALISE_POSITION);
    if (answer.number == IND_ACCEPTED)
        answer = kind_answer(&known, x2, layout, IND_SIGNAL,
                             IND_SIGNAL_TRACK, IND_SIGNAL_POSITION);
    if (answer.number == IND_ACCEPTED)
        answer = kind_answer(&known, x2, layout, IND_JOINT, IND_JOINT_TRACK,
                             IND_JOINT_POSITION);
    if (answer.number == IND_ACCEPTED)
        answer = sidings_answer(&known, x2, layout);
    return answer;
}

ind_answer ind_pair(const uint8_t *x1, size_t x1_length, const uint8_t *x2,
                    size_t x2_length)
{
    ind_layout layout;
    ind_answer answer = ind_x1(x1, x1_length);
    if (answer.number != IND_ACCEPTED) {
        answer.file = IND_FILE_X1;
        return answer;
    }
    answer = ind_application(x2, x2_length, &layout);
    if (answer.number != IND_ACCEPTED) {
        answer.file = IND_FILE_X2;
        return answer;
    }
    if (ind_two(x1, IND_STATION_PLACE) != ind_two(x2, IND_STATION_PLACE))
        return in_x2(IND_STATION, IND_STATION_PLACE);
    return records_answer(x1, x2, &layout);
}
