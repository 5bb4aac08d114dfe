/* 02's ticket 14: degrees beside milliarcseconds. What the paper says of them,
 * every whole degree, the division held to one by whole numbers, refusals, and
 * that the cases of whole degrees notice each wrong way to make degrees. */
#include "self.h"

#include <string.h>

#include "answer.h"
#include "generator/cases.h"
#include "generator/whole_degrees.h"

enum {
    AXES = 2,
    DEGREES_MOST = 2 * LONGITUDE_DEGREES + 1,
    /* At each end of a range so many degrees are reached from one side alone:
     * by a position, and by the largest and the least increment of a point,
     * which are above two degrees. */
    POSITION_ONE_WAY = 1,
    POINT_ONE_WAY = 3,
    /* The text of an answer in degrees takes less. */
    ANSWER_ROOM = 200
};

static int same_bits(double one, double other)
{
    return ind_bits_of(one) == ind_bits_of(other);
}

/* ---- degrees of milliarcseconds */

static const struct {
    int32_t milliarcseconds;
    uint64_t bits;
    const char *sentence;
} degrees_due[] = {
    { 324000000, 0x4056800000000000, "324000000 is 90.0" },
    { -648000000, 0xC066800000000000, "-648000000 is -180.0" },
    { -324000000, 0xC056800000000000, "-324000000 is -90.0" },
    { 648000000, 0x4066800000000000, "648000000 is 180.0" },
    { 0, 0, "0 is 0.0, with no sign" },
    { 3600000, 0x3FF0000000000000, "3600000 is 1.0" },
    { -3600000, 0xBFF0000000000000, "-3600000 is -1.0" },
    { 1800000, 0x3FE0000000000000, "1800000 is 0.5" },
    { 28125, 0x3F80000000000000, "28125 is 2^-7" },
    { 1200000, 0x3FD5555555555555, "1200000 is nearest to a third" },
    { 1, 0x3E92A42F961F79B9, "1 milliarcsecond" },
    { -1, 0xBE92A42F961F79B9, "-1 milliarcsecond" },
    { 3600001, 0x3FF000004A90BE58, "1 more than a degree" },
    { 3599999, 0x3FEFFFFF6ADE834F, "1 less than a degree" },
    { 323999999, 0x40567FFFFED5BD07, "1 less than 90 degrees" },
    { -647999999, 0xC0667FFFFF6ADE83, "1 more than -180 degrees" }
};

static void value_examples(void)
{
    for (size_t i = 0; i < sizeof degrees_due / sizeof *degrees_due; i++)
        ensure(ind_bits_of(ind_degrees_of(degrees_due[i].milliarcseconds))
                   == degrees_due[i].bits,
               degrees_due[i].sentence);
}

/* The bits of the binary64 that is nearest the exact fraction, of two the even
 * one, by long division of whole numbers: a bit at a time, until there are
 * 53. */
static uint64_t long_division(int32_t milliarcseconds)
{
    const uint64_t least = (uint64_t)1 << 52;
    uint64_t sign = milliarcseconds < 0;
    uint64_t rest = (uint64_t)(sign ? -(int64_t)milliarcseconds
                                    : milliarcseconds);
    uint64_t digits = rest / IND_DEGREE, places = 0;
    if (rest == 0)
        return 0;
    rest %= IND_DEGREE;
    for (; digits < least; places++) {
        rest *= 2;
        digits = 2 * digits + rest / IND_DEGREE;
        rest %= IND_DEGREE;
    }
    /* More than half of the last place goes up, and so does just half to an
     * odd number; where all 53 bits are ones the exponent goes up too. */
    digits += 2 * rest + digits % 2 > IND_DEGREE;
    return (sign << 63) + ((1023 + 52 - places) << 52) + (digits - least);
}

/* Whether degrees are right, and whether each is above the one before it. */
typedef struct {
    int right;
    int rising;
} degrees_judged;

/* From one number of milliarcseconds to another, by steps; within the range of
 * longitudes. */
static void judge_from(int64_t first, int64_t last, int64_t step,
                       degrees_judged *seen)
{
    double before = -LONGITUDE_DEGREES - 1.0;
    int64_t end = last > IND_LONGITUDE_LIMIT ? IND_LONGITUDE_LIMIT : last;
    int64_t at = first < -IND_LONGITUDE_LIMIT ? -IND_LONGITUDE_LIMIT : first;
    for (; at <= end; at += step) {
        double degrees = ind_degrees_of((int32_t)at);
        seen->right &= ind_bits_of(degrees) == long_division((int32_t)at);
        seen->rising &= degrees > before;
        before = degrees;
    }
}

static void division_examples(void)
{
    /* Beside each whole degree so many, and over all degrees such a step. */
    enum { NEAR = 1000, PRIME_STEP = 997 };
    degrees_judged seen = { 1, 1 };
    for (int64_t k = -LONGITUDE_DEGREES; k <= LONGITUDE_DEGREES; k++)
        judge_from(IND_DEGREE * k - NEAR, IND_DEGREE * k + NEAR, 1, &seen);
    for (int64_t part = IND_DEGREE; part > 0; part /= 2) {
        judge_from(part - NEAR, part + NEAR, 1, &seen);
        judge_from(-part - NEAR, -part + NEAR, 1, &seen);
    }
    judge_from(-IND_LONGITUDE_LIMIT, IND_LONGITUDE_LIMIT, PRIME_STEP, &seen);
    ensure(seen.right, "degrees are those of a long division");
    ensure(seen.rising, "degrees rise where milliarcseconds rise");
}

/* ---- every whole degree */

/* The paper's two numbers, asked of a position and of a point. */
static void paper_example(void)
{
    static asked ask;
    whole_degree put;
    uint32_t found = 0;
    int right = 1;
    for (uint32_t i = 0; i < DEGREE_CASES; i++) {
        posed given;
        build_whole_degree(i, &ask, &put);
        if (put.latitude != 324000000 || put.longitude != -648000000)
            continue;
        found |= ask.question == ASK_DEGREES ? 1 : 2;
        given = pose(&ask);
        right = right
            && prints(&given, "answer 0 0\n"
                              "latitude 324000000\n"
                              "longitude -648000000\n"
                              "latitude_degrees 4056800000000000\n"
                              "longitude_degrees c066800000000000\n");
    }
    ensure(right && found == 3,
           "a position and a point at 324000000 and -648000000");
}

/* What is printed of milliarcseconds and of degrees with these bits. */
static void write_due(char *due, const whole_degree *put, uint64_t latitude,
                      uint64_t longitude)
{
    snprintf(due, ANSWER_ROOM,
             "answer 0 0\nlatitude %ld\nlongitude %ld\n"
             "latitude_degrees %016llx\nlongitude_degrees %016llx\n",
             (long)put->latitude, (long)put->longitude,
             (unsigned long long)latitude, (unsigned long long)longitude);
}

/* Whether each case at a whole degree, or each beside one, prints the
 * milliarcseconds and the degrees; the whole degrees are given by the bits of
 * their numbers. */
static int whole_print(int beside)
{
    static asked ask;
    whole_degree put;
    char due[ANSWER_ROOM];
    int right = 1;
    for (uint32_t i = 0; i < DEGREE_CASES; i++) {
        posed given;
        build_whole_degree(i, &ask, &put);
        if ((put.side != 0) != beside)
            continue;
        given = pose(&ask);
        if (beside)
            write_due(due, &put, long_division(put.latitude),
                      long_division(put.longitude));
        else
            write_due(due, &put, ind_bits_of((double)put.latitude_degree),
                      ind_bits_of((double)put.longitude_degree));
        right = right && prints(&given, due);
    }
    return right;
}

/* Of an axis, which degrees and sides the cases of a question put a place at,
 * and from which side it is reached. */
typedef struct {
    uint8_t sides[DEGREES_MOST][DEGREE_SIDES];
    uint8_t below[DEGREES_MOST];
    uint8_t above[DEGREES_MOST];
} degrees_put;

static void note_put(degrees_put *seen, int32_t degree, int32_t place,
                     int32_t start)
{
    uint32_t index = (uint32_t)(degree + LONGITUDE_DEGREES);
    seen->sides[index][place - IND_DEGREE * degree + 1] = 1;
    seen->below[index] |= start < place;
    seen->above[index] |= start > place;
}

/* Whether all degrees of an axis are there, up to the last: each with both
 * sides but for what would be out of range, and reached from both, but for so
 * many at the ends. */
static int all_put(const degrees_put *seen, int32_t last, int32_t one_way)
{
    int all = 1;
    for (int32_t degree = -last; degree <= last; degree++) {
        uint32_t index = (uint32_t)(degree + LONGITUDE_DEGREES);
        int inner = degree >= one_way - last && degree <= last - one_way;
        all = all && seen->sides[index][1]
            && seen->sides[index][0] == (degree > -last)
            && seen->sides[index][2] == (degree < last)
            && seen->below[index] + seen->above[index] == 1 + inner;
    }
    return all;
}

/* The track that a case asks for: its entry, by the file. */
static ind_track track_of(const asked *ask)
{
    const stored *file = &ask->files[0];
    uint32_t index = ask->question == ASK_DEGREES ? ask->numbers[0] - 1
                                                  : ask->numbers[0];
    return ind_track_at(file->bytes, file->length, index);
}

static void cover_examples(void)
{
    static asked ask;
    static degrees_put latitudes[DEGREE_QUESTIONS],
        longitudes[DEGREE_QUESTIONS];
    uint32_t with_heights = 0;
    for (uint32_t i = 0; i < DEGREE_CASES; i++) {
        whole_degree put;
        uint32_t question;
        ind_track track;
        build_whole_degree(i, &ask, &put);
        question = ask.question == ASK_POINT_DEGREES;
        track = track_of(&ask);
        note_put(&latitudes[question], put.latitude_degree, put.latitude,
                 track.start_latitude);
        note_put(&longitudes[question], put.longitude_degree, put.longitude,
                 track.start_longitude);
        with_heights += (uint32_t)ind_has_heights(ask.files[0].bytes);
    }
    ensure(all_put(&latitudes[0], LATITUDE_DEGREES, POSITION_ONE_WAY)
               && all_put(&longitudes[0], LONGITUDE_DEGREES,
                          POSITION_ONE_WAY),
           "a position at and beside every whole degree");
    ensure(all_put(&latitudes[1], LATITUDE_DEGREES, POINT_ONE_WAY)
               && all_put(&longitudes[1], LONGITUDE_DEGREES, POINT_ONE_WAY),
           "a point at and beside every whole degree");
    ensure(2 * with_heights == DEGREE_CASES,
           "half of them in structure version 2");
}

static void whole_examples(void)
{
    ensure(whole_print(0), "whole degrees are exact");
    ensure(whole_print(1), "one milliarcsecond to either side of them");
}

/* ---- refusals */

/* Whether an answer holds its number and place and all else is 0. */
static int holds_nothing(const ind_degrees *found, ind_answer due)
{
    return found->answer.number == due.number
        && found->answer.place == due.place && found->answer.file == 0
        && found->latitude == 0 && found->longitude == 0
        && ind_bits_of(found->latitude_degrees) == 0
        && ind_bits_of(found->longitude_degrees) == 0;
}

enum {
    /* The near flag of the second track's last point, which ends the file
     * without heights; 2 is no such flag. */
    D_CASE = 0,
    D_LAST_NEAR = 145,
    D_BAD_NEAR = 2
};

/* Of the two tracks of three points, numbers 1 and 2, each 300 long: what is
 * asked, of the right file or of the one with a bad near flag, and how that is
 * refused. */
static const struct {
    uint32_t question;
    uint32_t numbers[2];
    int damaged;
    ind_answer due;
    const char *sentence;
} refusals[] = {
    { ASK_DEGREES, { 3, 200 }, 0, { 11, 0, 0 }, "no track 3: 11" },
    { ASK_DEGREES, { 0, 200 }, 0, { 11, 0, 0 }, "track 0: 11" },
    { ASK_DEGREES, { 257, 200 }, 0, { 11, 0, 0 }, "track 257: 11" },
    { ASK_DEGREES, { 0xFFFFFFFF, 0 }, 0, { 11, 0, 0 }, "track 2^32 - 1: 11" },
    { ASK_DEGREES, { 1, 301 }, 0, { 12, 0, 0 }, "one beyond the end: 12" },
    { ASK_DEGREES, { 2, 0xFFFFFFFF }, 0, { 12, 0, 0 }, "far beyond it: 12" },
    { ASK_DEGREES, { 3, 301 }, 0, { 11, 0, 0 }, "11 before 12" },
    { ASK_DEGREES, { 1, 200 }, 1, { 5, D_LAST_NEAR, 0 },
      "degrees first give the file's fault" },
    { ASK_DEGREES, { 3, 200 }, 1, { 5, D_LAST_NEAR, 0 }, "5 before 11" },
    { ASK_DEGREES, { 1, 301 }, 1, { 5, D_LAST_NEAR, 0 }, "5 before 12" },
    { ASK_POINT_DEGREES, { 2, 1 }, 0, { 13, 0, 0 }, "no third track: 13" },
    { ASK_POINT_DEGREES, { 1, 3 }, 0, { 13, 0, 0 }, "no fourth point: 13" },
    { ASK_POINT_DEGREES, { 256, 1 }, 0, { 13, 0, 0 }, "track index 256: 13" },
    { ASK_POINT_DEGREES, { 1, 65537 }, 0, { 13, 0, 0 },
      "point index 65,537: 13" },
    { ASK_POINT_DEGREES, { 0xFFFFFFFF, 0xFFFFFFFF }, 0, { 13, 0, 0 },
      "indexes 2^32 - 1: 13" },
    { ASK_POINT_DEGREES, { 1, 1 }, 1, { 5, D_LAST_NEAR, 0 },
      "a point's degrees first give the file's fault" },
    { ASK_POINT_DEGREES, { 2, 3 }, 1, { 5, D_LAST_NEAR, 0 }, "5 before 13" }
};

static int refusal_right(size_t which, asked *ask)
{
    char due[ANSWER_ROOM];
    posed given;
    ind_degrees found;
    ask->question = refusals[which].question;
    ask->numbers[0] = refusals[which].numbers[0];
    ask->numbers[1] = refusals[which].numbers[1];
    ask->files[0].bytes[D_LAST_NEAR] =
        refusals[which].damaged ? D_BAD_NEAR : 0;
    seal(&ask->files[0]);
    given = pose(ask);
    found = ask_degrees(&given);
    snprintf(due, sizeof due, "answer %lu %lu\n",
             (unsigned long)refusals[which].due.number,
             (unsigned long)refusals[which].due.place);
    return holds_nothing(&found, refusals[which].due) && prints(&given, due);
}

static void refusal_examples(void)
{
    static const ind_answer too_short = { 1, 0, 0 };
    static asked ask;
    whole_degree put;
    posed nothing = {
        ASK_DEGREES, { 1, 0, 0, 0 }, { NULL, NULL }, { 0, 0 }, NULL
    };
    ind_degrees found = ask_degrees(&nothing), of_point;
    nothing.question = ASK_POINT_DEGREES;
    of_point = ask_degrees(&nothing);
    build_whole_degree(D_CASE, &ask, &put);
    for (size_t i = 0; i < sizeof refusals / sizeof *refusals; i++)
        ensure(refusal_right(i, &ask), refusals[i].sentence);
    ensure(holds_nothing(&found, too_short)
               && holds_nothing(&of_point, too_short),
           "no file at all: 1");
}

/* ---- generated files */

enum {
    GENERATED_SEED = 14,
    GENERATED_CASES = 3000
};

/* Degrees of these milliarcseconds, or the same refusal. */
static int degrees_agree(const ind_degrees *found, ind_answer answer,
                         int32_t latitude, int32_t longitude)
{
    if (answer.number != IND_ACCEPTED)
        return holds_nothing(found, answer);
    return found->answer.number == IND_ACCEPTED && found->answer.place == 0
        && found->latitude == latitude && found->longitude == longitude
        && ind_bits_of(found->latitude_degrees) == long_division(latitude)
        && ind_bits_of(found->longitude_degrees) == long_division(longitude);
}

static int as_coordinate(const posed *ask)
{
    ind_degrees found = ask_degrees(ask);
    ind_coordinate due = ind_coordinate_at(
        ask->bytes[0], ask->length[0], ask->numbers[0], ask->numbers[1]);
    return degrees_agree(&found, due.answer, due.latitude, due.longitude);
}

static int as_point(const posed *ask)
{
    ind_degrees found = ask_degrees(ask);
    ind_point due = ind_point_at(ask->bytes[0], ask->length[0],
                                 ask->numbers[0], ask->numbers[1]);
    ind_track track =
        ind_track_at(ask->bytes[0], ask->length[0], ask->numbers[0]);
    return degrees_agree(&found, due.answer,
                         track.start_latitude + due.latitude_increment,
                         track.start_longitude + due.longitude_increment);
}

static int generated_agree(uint32_t question, int (*agrees)(const posed *ask))
{
    static asked ask;
    generation run = { GENERATED_SEED, 0, GENERATED_CASES, { { 0 }, 1 } };
    int right = 1;
    run.kinds.asked_for[question] = 1;
    for (uint64_t i = run.first; i < run.end; i++) {
        posed given;
        build_case(&run, i, &ask);
        given = pose(&ask);
        right = right && ask.question == question && agrees(&given);
    }
    return right;
}

static void generated_examples(void)
{
    ensure(generated_agree(ASK_DEGREES, as_coordinate),
           "of generated files, degrees and refusals as the coordinate's");
    ensure(generated_agree(ASK_POINT_DEGREES, as_point),
           "of generated files, degrees and refusals as the point's");
}

/* ---- wrong ways, each of which the cases of whole degrees have to notice */

/* Start, end and place of a case, latitude first. */
typedef struct {
    int32_t start[AXES];
    int32_t end[AXES];
    int32_t place[AXES];
} degrees_seen;

static double increment_alone(const degrees_seen *of, int axis)
{
    return ind_degrees_of(of->place[axis] - of->start[axis]);
}

static double start_alone(const degrees_seen *of, int axis)
{
    return ind_degrees_of(of->start[axis]);
}

static double end_for_start(const degrees_seen *of, int axis)
{
    return ind_degrees_of(of->end[axis] + of->place[axis] - of->start[axis]);
}

static double axes_swapped(const degrees_seen *of, int axis)
{
    return ind_degrees_of(of->place[1 - axis]);
}

static double start_and_increment(const degrees_seen *of, int axis)
{
    return start_alone(of, axis) + increment_alone(of, axis);
}

static double seconds_first(const degrees_seen *of, int axis)
{
    return (double)of->place[axis] / 1000.0 / 3600.0;
}

static double thousandths_last(const degrees_seen *of, int axis)
{
    return (double)of->place[axis] / 3600.0 / 1000.0;
}

static double inverse(const degrees_seen *of, int axis)
{
    return (double)of->place[axis] * (1.0 / IND_DEGREE);
}

static double binary32(const degrees_seen *of, int axis)
{
    return (double)((float)of->place[axis] / (float)IND_DEGREE);
}

static double whole_alone(const degrees_seen *of, int axis)
{
    return (double)(of->place[axis] / IND_DEGREE);
}

static double sign_apart(const degrees_seen *of, int axis)
{
    double degrees = ind_degrees_of(of->place[axis] > 0 ? of->place[axis]
                                                        : -of->place[axis]);
    return of->place[axis] > 0 ? degrees : -degrees;
}

static double opposite(const degrees_seen *of, int axis)
{
    return -ind_degrees_of(of->place[axis]);
}

static const struct {
    double (*degrees)(const degrees_seen *of, int axis);
    const char *sentence;
} wrong_ways[] = {
    { increment_alone, "the increment alone is noticed" },
    { start_alone, "the start alone is noticed" },
    { end_for_start, "the end for the start is noticed" },
    { axes_swapped, "swapped axes are noticed" },
    { start_and_increment, "a sum of two quotients is noticed" },
    { seconds_first, "division by 1000 and 3600 is noticed" },
    { thousandths_last, "division by 3600 and 1000 is noticed" },
    { inverse, "multiplication by the inverse is noticed" },
    { binary32, "a binary32 is noticed" },
    { whole_alone, "the whole degrees alone are noticed" },
    { sign_apart, "a 0 with a sign is noticed" },
    { opposite, "the other sign is noticed" }
};

/* Whether a wrong way gives other bits than the right one, of each axis and by
 * each question, in some case. */
static int is_noticed(double (*degrees)(const degrees_seen *of, int axis))
{
    static asked ask;
    int noticed[DEGREE_QUESTIONS][AXES] = { { 0 } };
    for (uint32_t i = 0; i < DEGREE_CASES; i++) {
        whole_degree put;
        degrees_seen of;
        ind_track track;
        build_whole_degree(i, &ask, &put);
        track = track_of(&ask);
        of = (degrees_seen){ { track.start_latitude, track.start_longitude },
                             { track.end_latitude, track.end_longitude },
                             { put.latitude, put.longitude } };
        for (int axis = 0; axis < AXES; axis++)
            noticed[ask.question == ASK_POINT_DEGREES][axis] |=
                !same_bits(degrees(&of, axis), ind_degrees_of(of.place[axis]));
    }
    return noticed[0][0] && noticed[0][1] && noticed[1][0] && noticed[1][1];
}

static void wrong_way_examples(void)
{
    for (size_t i = 0; i < sizeof wrong_ways / sizeof *wrong_ways; i++)
        ensure(is_noticed(wrong_ways[i].degrees), wrong_ways[i].sentence);
}

void degrees_examples(void)
{
    value_examples();
    division_examples();
    paper_example();
    cover_examples();
    whole_examples();
    refusal_examples();
    generated_examples();
    wrong_way_examples();
}
