/* 02's ticket 9: what lies ahead. Yard Y of 01 by every lie, each stop, the
 * order of judging around the sixty-fourth object, turnouts that share a lie,
 * refusals and their order, the bytes that are left, and the form of the
 * cases. */
#include "self.h"

#include <string.h>

#include "answer.h"
#include "batch.h"
#include "drawn.h"
#include "generator/cases.h"

enum {
    /* The end of the X.1's track, and the latitude there. */
    TRACK_END = 3,
    TRACK_LATITUDE = 1,
    /* What stands in a lent byte before a call, and how many are lent. */
    UNTOUCHED_BYTE = 0xA5,
    AMPLE_BYTES = IND_AHEAD_ROOM + 72,
    /* A lie that is none of the three. */
    NO_LIE = 3,
    /* The turnout number of yard Y, and the largest one. */
    Y_NUMBER = 1,
    LARGEST_NUMBER = 255
};

#define ANSWERED(stop, objects)                                              \
    "answer 0 0 0\nstop " stop "\nobjects" objects "\n"
#define REFUSED(number) "answer " number "\n"

static asked given;
static yard drawn;

/* ---- a case, and whether it is answered as is due */

/* The lie of one turnout number; every other byte has another lie. */
static void set_lie(uint32_t number, uint8_t lie)
{
    memset(given.lies, (lie + 1) % (IND_LIE_UNKNOWN + 1), sizeof given.lies);
    given.lies[number] = lie;
}

/* The X.1 beside the yard that the case has, the object last passed and its
 * link, with 256 lies and room enough. */
static void ask_from(uint32_t offset, uint32_t link)
{
    given.question = ASK_AHEAD;
    make_one_track(&given.files[0], TRACK_END, TRACK_LATITUDE);
    given.numbers[AHEAD_OFFSET] = offset;
    given.numbers[AHEAD_LINK] = link;
    given.numbers[AHEAD_LIES] = IND_LIES;
    given.numbers[AHEAD_BYTES] = AMPLE_BYTES;
}

/* Asks the core, with all lent bytes untouched before. */
static ind_ahead ask_core(uint8_t out[AMPLE_BYTES])
{
    const uint32_t *n = given.numbers;
    memset(out, UNTOUCHED_BYTE, AMPLE_BYTES);
    return ind_ahead_of(given.files[0].bytes, given.files[0].length,
                        given.files[1].bytes, given.files[1].length,
                        n[AHEAD_OFFSET], n[AHEAD_LINK], given.lies,
                        n[AHEAD_LIES], out, n[AHEAD_BYTES]);
}

/* Whether all lent bytes after the objects are as they were; of a refusal all
 * are, and it has no stop and no objects. */
static int rest_kept(const ind_ahead *found, const uint8_t out[AMPLE_BYTES])
{
    uint32_t kept = IND_OFFSET_SIZE * found->objects;
    if (found->answer.number != IND_ACCEPTED
        && (found->stop != IND_NO_STOP || found->objects != 0))
        return 0;
    while (kept < AMPLE_BYTES && out[kept] == UNTOUCHED_BYTE)
        kept++;
    return kept == AMPLE_BYTES;
}

/* Whether the case prints this, and leaves the other bytes. */
static int says(const char *due)
{
    uint8_t out[AMPLE_BYTES];
    posed ask = pose(&given);
    ind_ahead found = ask_core(out);
    return prints(&ask, due) && rest_kept(&found, out);
}

/* ---- yard Y */

static const struct {
    uint32_t offset;
    uint32_t link;
    uint8_t lie;
    const char *due;
    const char *sentence;
} y_ways[] = {
    { Y_START, 0, 0, ANSWERED("boundary", " 80 56"),
      "entered at the front, lie normal: left by normal" },
    { Y_START, 0, 1, ANSWERED("boundary", " 80 68"),
      "entered at the front, lie reverse: left by reverse" },
    { Y_START, 0, 2, ANSWERED("unknown-lie", " 80"),
      "an unknown lie met at the front" },
    { Y_FIRST_END, 0, 0, ANSWERED("boundary", " 80 44"),
      "the normal leg trailed with its lie" },
    { Y_FIRST_END, 0, 1, ANSWERED("against-lie", " 80"),
      "the normal leg trailed against a known lie" },
    { Y_FIRST_END, 0, 2, ANSWERED("boundary", " 80 44"),
      "the normal leg trailed with the lie unknown is passed" },
    { Y_SECOND_END, 0, 0, ANSWERED("against-lie", " 80"),
      "the reverse leg trailed against a known lie" },
    { Y_SECOND_END, 0, 1, ANSWERED("boundary", " 80 44"),
      "the reverse leg trailed with its lie" },
    { Y_SECOND_END, 0, 2, ANSWERED("boundary", " 80 44"),
      "the reverse leg trailed with the lie unknown is passed" },
    { Y_TURNOUT, 0, 2, ANSWERED("boundary", " 44"),
      "a turnout left by the front; its own lie is not asked" },
    { Y_TURNOUT, 1, 1, ANSWERED("boundary", " 56"),
      "a turnout left by normal, though it lies reverse" },
    { Y_TURNOUT, 2, 0, ANSWERED("boundary", " 68"),
      "a turnout left by reverse, though it lies normal" }
};

static void y_examples(void)
{
    make_y(&given.files[1], Y_SECOND_END);
    for (size_t i = 0; i < sizeof y_ways / sizeof *y_ways; i++) {
        ask_from(y_ways[i].offset, y_ways[i].link);
        set_lie(Y_NUMBER, y_ways[i].lie);
        ensure(says(y_ways[i].due), y_ways[i].sentence);
    }
}

/* ---- refusals of the question */

/* A question to Y: its numbers, and a lie at a byte. */
static const struct {
    uint32_t numbers[NUMBERS];
    uint32_t byte;
    uint8_t lie;
    const char *due;
    const char *sentence;
} y_questions[] = {
    { { 44, 0, 256, 128 }, 0, 0, ANSWERED("boundary", " 80 56"),
      "room of 128 bytes is enough" },
    { { 44, 0, 256, 127 }, 0, 0, REFUSED("15 0 0"), "room of 127 bytes: 15" },
    { { 44, 0, 256, 4 }, 0, 0, REFUSED("15 0 0"),
      "room for the objects that there are: 15" },
    { { 44, 0, 256, 0 }, 0, 0, REFUSED("15 0 0"), "no room: 15" },
    { { 45, 0, 256, 128 }, 0, 0, REFUSED("13 0 0"), "inside a boundary: 13" },
    { { 92, 0, 256, 128 }, 0, 0, REFUSED("13 0 0"), "inside a turnout: 13" },
    { { 0, 0, 256, 128 }, 0, 0, REFUSED("13 0 0"), "in the header: 13" },
    { { 43, 0, 256, 128 }, 0, 0, REFUSED("13 0 0"), "before 44: 13" },
    { { 104, 0, 256, 128 }, 0, 0, REFUSED("13 0 0"), "at End: 13" },
    { { 108, 0, 256, 128 }, 0, 0, REFUSED("13 0 0"), "at the length: 13" },
    { { 65536 + 44, 0, 256, 128 }, 0, 0, REFUSED("13 0 0"),
      "65,536 more than 44: 13" },
    { { 0xFFFFFFFF, 0, 256, 128 }, 0, 0, REFUSED("13 0 0"),
      "2^32 - 1: 13" },
    { { 44, 1, 256, 128 }, 0, 0, REFUSED("13 0 0"), "link 1 of 44: 13" },
    { { 56, 1, 256, 128 }, 0, 0, REFUSED("13 0 0"), "link 1 of 56: 13" },
    { { 80, 3, 256, 128 }, 0, 0, REFUSED("13 0 0"), "link 3 of 80: 13" },
    { { 80, 256, 256, 128 }, 0, 0, REFUSED("13 0 0"), "link 256 of 80: 13" },
    { { 80, 65536, 256, 128 }, 0, 0, REFUSED("13 0 0"),
      "link 65,536 of 80: 13" },
    { { 80, 0xFFFFFFFF, 256, 128 }, 0, 0, REFUSED("13 0 0"),
      "link 2^32 - 1 of 80: 13" },
    { { 44, 0, 0, 128 }, 0, 0, REFUSED("13 0 0"), "no lies: 13" },
    { { 44, 0, 255, 128 }, 0, 0, REFUSED("13 0 0"), "255 lies: 13" },
    { { 44, 0, 257, 128 }, 0, 0, REFUSED("13 0 0"), "257 lies: 13" },
    { { 44, 0, 512, 128 }, 0, 0, REFUSED("13 0 0"), "512 lies: 13" },
    { { 44, 0, 256, 128 }, 1, NO_LIE, REFUSED("13 0 0"),
      "a lie of 3 for a turnout: 13" },
    { { 44, 0, 256, 128 }, 1, 255, REFUSED("13 0 0"),
      "a lie of 255 for a turnout: 13" },
    { { 44, 0, 256, 128 }, 0, NO_LIE, REFUSED("13 0 0"),
      "a lie of 3 at byte 0: 13" },
    { { 44, 0, 256, 128 }, 2, NO_LIE, REFUSED("13 0 0"),
      "a lie of 3 for no turnout: 13" },
    { { 44, 0, 256, 128 }, 255, NO_LIE, REFUSED("13 0 0"),
      "a lie of 3 at the last byte: 13" },
    { { 44, 0, 256, 128 }, 0, 1, ANSWERED("boundary", " 80 56"),
      "byte 0 reverse: it belongs to no turnout" },
    { { 44, 0, 256, 128 }, 0, 2, ANSWERED("boundary", " 80 56"),
      "byte 0 unknown: it belongs to no turnout" },
    { { 45, 0, 256, 127 }, 0, 0, REFUSED("13 0 0"), "an offset before room" },
    { { 44, 1, 256, 0 }, 0, 0, REFUSED("13 0 0"), "a link before room" },
    { { 44, 0, 255, 0 }, 0, 0, REFUSED("13 0 0"),
      "the number of lies before room" },
    { { 44, 0, 256, 0 }, 9, NO_LIE, REFUSED("13 0 0"), "a lie before room" }
};

static void question_examples(void)
{
    make_y(&given.files[1], Y_SECOND_END);
    for (size_t i = 0; i < sizeof y_questions / sizeof *y_questions; i++) {
        ask_from(Y_START, 0);
        memset(given.lies, IND_LIE_NORMAL, sizeof given.lies);
        memcpy(given.numbers, y_questions[i].numbers, sizeof given.numbers);
        given.lies[y_questions[i].byte] = y_questions[i].lie;
        ensure(says(y_questions[i].due), y_questions[i].sentence);
    }
}

/* ---- refusals of the pair: each comes before those of the question */

/* Yard Y and its X.1: two bytes of a file, what stands there instead, and what
 * is due. */
static const struct {
    int file;
    uint32_t place;
    uint32_t value;
    const char *due;
    const char *sentence;
} pair_faults[] = {
    { 0, IND_DATA_VERSION_PLACE, 0, REFUSED("5 3 1"), "the X.1's own fault" },
    { 1, IND_DATA_VERSION_PLACE, 0, REFUSED("5 3 2"), "the X.2's own fault" },
    { 1, 99, Y_FIRST_END + 1, REFUSED("8 99 2"), "a wrong link" },
    { 1, 99, Y_FIRST_END, REFUSED("9 69 2"), "a link that is not returned" },
    { 0, IND_STATION_PLACE, 2, REFUSED("10 5 2"), "stations differ" },
    { 1, 101, 1 << 8 | 2, REFUSED("11 101 2"), "a track not in the X.1" },
    { 1, 83, TRACK_END + 1, REFUSED("12 83 2"), "a position beyond the end" }
};

static void pair_examples(void)
{
    for (size_t i = 0; i < sizeof pair_faults / sizeof *pair_faults; i++) {
        stored *file = &given.files[pair_faults[i].file];
        make_y(&given.files[1], Y_SECOND_END);
        ask_from(Y_START + 1, 1);
        given.numbers[AHEAD_LIES] = IND_LIES - 1;
        given.numbers[AHEAD_BYTES] = 0;
        put_two(file->bytes, pair_faults[i].place, pair_faults[i].value);
        seal(file);
        ensure(says(pair_faults[i].due), pair_faults[i].sentence);
    }
    make_y(&given.files[1], Y_SECOND_END);
    ask_from(Y_START, 0);
    given.files[0].length = given.files[1].length = 0;
    ensure(says(REFUSED("1 0 1")), "no X.1 and no X.2: 1, file 1");
    ask_from(Y_START, 0);
    ensure(says(REFUSED("1 0 2")), "no X.2: 1, file 2");
}

/* ---- around the sixty-fourth object */

/* Where a way ends that begins at a start boundary, or leads around. */
typedef enum {
    TO_BOUNDARY,
    TO_NOTHING,
    /* A turnout entered at the front: normal has no link, reverse leads to a
     * boundary. */
    TO_FRONT,
    /* A turnout entered at a leg, whose front leads to a boundary. */
    TO_NORMAL,
    TO_REVERSE,
    /* The same, whose front has no link. */
    TO_LONE_NORMAL,
    /* Behind a turnout entered at the front, around from its normal leg to its
     * reverse leg; the last two over a turnout that shares its lie, entered at
     * a leg, the front of which leads there. */
    IN_LOOP,
    IN_LOOP_BY_NORMAL,
    IN_LOOP_BY_REVERSE,
    /* From a joint around to that joint, and from a turnout's normal leg to
     * its reverse leg or to its front. */
    AROUND_JOINT,
    AROUND_TO_REVERSE,
    AROUND_TO_FRONT
} way_end;

/* The start boundary and the end boundary of each such yard, and the object
 * after them. */
enum { START = 1, END = 2, THIRD = 3 };

/* So many joints from a port on; the last of them. */
static uint32_t joints_from(uint32_t at, uint32_t port, uint32_t joints)
{
    for (; joints > 0; joints--) {
        uint32_t joint = put(&drawn, IND_JOINT);
        join(&drawn, at, port, joint, PREVIOUS);
        at = joint;
        port = NEXT;
    }
    return at;
}

/* A boundary that no way leads to has a joint of its own. */
static void set_aside(uint32_t boundary)
{
    if (drawn.objects[boundary].links[LINK] == NO_OBJECT)
        join(&drawn, boundary, LINK, put(&drawn, IND_JOINT), PREVIOUS);
}

static void draw_line(way_end end, uint32_t joints)
{
    static const uint32_t entered[] = { [TO_FRONT] = FRONT,
                                        [TO_NORMAL] = NORMAL,
                                        [TO_REVERSE] = REVERSE,
                                        [TO_LONE_NORMAL] = NORMAL };
    uint32_t last = joints_from(START, LINK, joints), turnout;
    if (end == TO_BOUNDARY)
        join(&drawn, last, NEXT, END, LINK);
    if (end == TO_BOUNDARY || end == TO_NOTHING)
        return;
    turnout = put(&drawn, IND_TURNOUT);
    join(&drawn, last, NEXT, turnout, entered[end]);
    if (end != TO_LONE_NORMAL)
        join(&drawn, turnout, end == TO_FRONT ? REVERSE : FRONT, END, LINK);
}

static void draw_loop(way_end end, uint32_t joints)
{
    uint32_t loop = put(&drawn, IND_TURNOUT), last, turnout;
    join(&drawn, START, LINK, loop, FRONT);
    last = joints_from(loop, NORMAL, joints);
    if (end == IN_LOOP) {
        join(&drawn, last, NEXT, loop, REVERSE);
        return;
    }
    turnout = put(&drawn, IND_TURNOUT);
    join(&drawn, last, NEXT, turnout,
         end == IN_LOOP_BY_NORMAL ? NORMAL : REVERSE);
    join(&drawn, turnout, FRONT, loop, REVERSE);
}

static void draw_around(way_end end, uint32_t joints)
{
    int joint = end == AROUND_JOINT;
    uint32_t first = put(&drawn, joint ? IND_JOINT : IND_TURNOUT);
    uint32_t last = joints_from(first, joint ? NEXT : NORMAL, joints);
    uint32_t port = end == AROUND_TO_FRONT ? FRONT : REVERSE;
    join(&drawn, last, NEXT, first, joint ? PREVIOUS : port);
}

/* All turnouts have one number. */
static void lay_out_drawn(uint32_t number)
{
    lay_out(&drawn, &given.files[0], &given.files[1]);
    for (uint32_t i = 1; i <= drawn.count; i++)
        if (drawn.objects[i].kind == IND_TURNOUT)
            given.files[1].bytes[drawn.objects[i].start + IND_TURNOUT_NUMBER] =
                (uint8_t)number;
    seal(&given.files[1]);
}

/* The yard, and the object last passed; its first object ahead is the next
 * that was put. */
static uint32_t draw_way(way_end end, uint32_t joints)
{
    int around = end >= AROUND_JOINT;
    begin(&drawn, 1, 1);
    if (around)
        draw_around(end, joints);
    else if (end >= IN_LOOP)
        draw_loop(end, joints);
    else
        draw_line(end, joints);
    set_aside(START);
    set_aside(END);
    return around ? THIRD : START;
}

static const struct {
    way_end end;
    uint32_t joints;
    uint8_t lie;
    ind_stop stop;
    uint32_t objects;
    const char *sentence;
} ways[] = {
    { TO_BOUNDARY, 62, 2, IND_STOP_BOUNDARY, 63, "a boundary is the 63rd" },
    { TO_BOUNDARY, 63, 2, IND_STOP_BOUNDARY, 64, "a boundary is the 64th" },
    { TO_BOUNDARY, 64, 2, IND_STOP_FULL, 64, "a boundary as 65th: full" },
    { TO_NOTHING, 1, 2, IND_STOP_NO_LINK, 1, "no link after the first" },
    { TO_NOTHING, 63, 2, IND_STOP_NO_LINK, 63, "no link after the 63rd" },
    { TO_NOTHING, 64, 2, IND_STOP_NO_LINK, 64, "no link after the 64th" },
    { TO_NOTHING, 65, 2, IND_STOP_FULL, 64, "no link after the 65th: full" },
    { TO_FRONT, 63, 2, IND_STOP_UNKNOWN_LIE, 64, "an unknown lie, the 64th" },
    { TO_FRONT, 63, 0, IND_STOP_NO_LINK, 64, "the 64th left by no link" },
    { TO_FRONT, 63, 1, IND_STOP_FULL, 64, "the 64th left by reverse: full" },
    { TO_FRONT, 64, 2, IND_STOP_FULL, 64, "an unknown lie as 65th: full" },
    { TO_NORMAL, 63, 1, IND_STOP_AGAINST_LIE, 64, "against a lie, the 64th" },
    { TO_NORMAL, 63, 0, IND_STOP_FULL, 64, "with its lie, the 64th: full" },
    { TO_NORMAL, 63, 2, IND_STOP_FULL, 64, "a leg passed, the 64th: full" },
    { TO_NORMAL, 64, 1, IND_STOP_FULL, 64, "against a lie as 65th: full" },
    { TO_NORMAL, 62, 2, IND_STOP_BOUNDARY, 64, "a leg passed, the 63rd" },
    { TO_REVERSE, 63, 0, IND_STOP_AGAINST_LIE, 64, "reverse against normal" },
    { TO_REVERSE, 62, 1, IND_STOP_BOUNDARY, 64, "reverse with its lie" },
    { TO_LONE_NORMAL, 63, 1, IND_STOP_AGAINST_LIE, 64,
      "against a lie, before no link is seen" },
    { TO_LONE_NORMAL, 63, 2, IND_STOP_NO_LINK, 64,
      "a leg passed, and no link after the 64th" },
    { IN_LOOP, 2, 2, IND_STOP_UNKNOWN_LIE, 1, "a loop not entered" },
    { IN_LOOP, 2, 0, IND_STOP_REPEATED, 3,
      "a turnout met again against its lie: repeated" },
    { IN_LOOP, 62, 0, IND_STOP_REPEATED, 63, "repeated after the 63rd" },
    { IN_LOOP, 63, 0, IND_STOP_REPEATED, 64, "repeated after the 64th" },
    { IN_LOOP, 64, 0, IND_STOP_FULL, 64, "repeated after the 65th: full" },
    { IN_LOOP_BY_NORMAL, 62, 0, IND_STOP_REPEATED, 64,
      "a shared lie, for the leg trailed: repeated" },
    { IN_LOOP_BY_REVERSE, 62, 0, IND_STOP_AGAINST_LIE, 64,
      "a shared lie, against the leg trailed, before repeated is seen" },
    { IN_LOOP_BY_REVERSE, 2, 0, IND_STOP_AGAINST_LIE, 4,
      "the same with 4 objects" },
    { AROUND_JOINT, 2, 2, IND_STOP_REPEATED, 2, "the joint last passed" },
    { AROUND_JOINT, 63, 2, IND_STOP_REPEATED, 63, "the same after 63" },
    { AROUND_JOINT, 64, 2, IND_STOP_REPEATED, 64, "the same after 64" },
    { AROUND_JOINT, 65, 2, IND_STOP_FULL, 64, "the same after 65: full" },
    { AROUND_TO_REVERSE, 2, 2, IND_STOP_REPEATED, 2,
      "the turnout last passed, its lie unknown" },
    { AROUND_TO_REVERSE, 2, 0, IND_STOP_REPEATED, 2,
      "the turnout last passed, against its lie: repeated" },
    { AROUND_TO_FRONT, 2, 2, IND_STOP_REPEATED, 2,
      "the turnout last passed, at the front, its lie unknown: repeated" },
    { AROUND_TO_FRONT, 64, 0, IND_STOP_REPEATED, 64,
      "the same after 64, its lie known" }
};

/* Whether the objects stand in the order in which they were put, but for the
 * end boundary. */
static int in_order(const ind_ahead *found, const uint8_t *out,
                    uint32_t passed)
{
    uint32_t first = passed < THIRD ? THIRD : passed + 1;
    for (uint32_t i = 0; i < found->objects; i++) {
        int last = i + 1 == found->objects;
        uint32_t due =
            found->stop == IND_STOP_BOUNDARY && last ? END : first + i;
        if (ind_two(out, IND_OFFSET_SIZE * i) != drawn.objects[due].start)
            return 0;
    }
    return 1;
}

static int way_right(size_t which)
{
    uint8_t out[AMPLE_BYTES];
    uint32_t passed = draw_way(ways[which].end, ways[which].joints);
    ind_ahead found;
    ask_from(0, 0);
    lay_out_drawn(LARGEST_NUMBER);
    given.numbers[AHEAD_OFFSET] = drawn.objects[passed].start;
    given.numbers[AHEAD_LINK] = passed == THIRD ? NEXT : LINK;
    set_lie(LARGEST_NUMBER, ways[which].lie);
    found = ask_core(out);
    return found.answer.number == IND_ACCEPTED
        && found.stop == ways[which].stop
        && found.objects == ways[which].objects && rest_kept(&found, out)
        && in_order(&found, out, passed);
}

static void way_examples(void)
{
    for (size_t i = 0; i < sizeof ways / sizeof *ways; i++)
        ensure(way_right(i), ways[i].sentence);
}

/* ---- objects of every kind */

/* From the start boundary over a signal, a group of two balises and a joint to
 * the end boundary; a turnout, a joint and a siding beside them. */
static void draw_kinds(void)
{
    enum { TWO = 1 << IND_GROUP_COUNT_SHIFT };
    uint32_t signal, balise, member, joint;
    begin(&drawn, 1, 1);
    put(&drawn, IND_TURNOUT);
    balise = put(&drawn, IND_BALISE);
    member = put(&drawn, IND_BALISE);
    signal = put(&drawn, IND_SIGNAL);
    joint = put_several(&drawn, IND_JOINT, 2);
    put(&drawn, IND_SIDING);
    drawn.objects[balise].group_byte = TWO;
    drawn.objects[member].group_byte = TWO | 1;
    drawn.objects[member].first = balise;
    join(&drawn, START, LINK, signal, NEXT);
    join(&drawn, signal, PREVIOUS, balise, PREVIOUS);
    join(&drawn, balise, NEXT, joint, NEXT);
    join(&drawn, joint, PREVIOUS, END, LINK);
}

/* Its boundaries start at 41 and 53, the turnout at 65, the balises at 89 and
 * 105, the signal at 121, the joints at 140 and 158, the siding at 176. */
static const struct {
    uint32_t offset;
    uint32_t link;
    const char *due;
    const char *sentence;
} kinds[] = {
    { 41, 0, ANSWERED("boundary", " 121 89 140 53"),
      "over a signal, number 1 of a group and a joint" },
    { 53, 0, ANSWERED("boundary", " 140 89 121 41"), "the same way back" },
    { 121, 0, ANSWERED("boundary", " 89 140 53"), "a signal's previous" },
    { 121, 1, ANSWERED("boundary", " 41"), "a signal's next" },
    { 89, 0, ANSWERED("boundary", " 121 41"), "a balise's previous" },
    { 89, 1, ANSWERED("boundary", " 140 53"), "a balise's next" },
    { 140, 0, ANSWERED("boundary", " 53"), "a joint's previous" },
    { 140, 1, ANSWERED("boundary", " 89 121 41"), "a joint's next" },
    { 158, 0, ANSWERED("no-link", ""), "a joint with no link" },
    { 158, 1, ANSWERED("no-link", ""), "a joint with no other link" },
    { 65, 0, ANSWERED("no-link", ""), "a turnout with no front link" },
    { 65, 2, ANSWERED("no-link", ""), "a turnout with no reverse link" },
    { 105, 0, REFUSED("13 0 0"), "number 2 of a group: 13" },
    { 176, 0, REFUSED("13 0 0"), "a siding: 13" },
    { 121, 2, REFUSED("13 0 0"), "link 2 of a signal: 13" },
    { 89, 2, REFUSED("13 0 0"), "link 2 of a balise: 13" },
    { 140, 2, REFUSED("13 0 0"), "link 2 of a joint: 13" }
};

static void kind_examples(void)
{
    draw_kinds();
    ask_from(0, 0);
    lay_out_drawn(Y_NUMBER);
    for (size_t i = 0; i < sizeof kinds / sizeof *kinds; i++) {
        ask_from(kinds[i].offset, kinds[i].link);
        set_lie(Y_NUMBER, IND_LIE_UNKNOWN);
        ensure(says(kinds[i].due), kinds[i].sentence);
    }
}

/* ---- lies of two turnouts */

/* 47 is before turnout 95, whose normal leg leads to 59 and whose reverse leg
 * to the normal leg of turnout 119; its front leads to 71, and its reverse leg
 * to 83. Gives back the second turnout. */
static uint32_t draw_two_turnouts(void)
{
    uint32_t one, other;
    begin(&drawn, 1, 3);
    one = put(&drawn, IND_TURNOUT);
    other = put(&drawn, IND_TURNOUT);
    join(&drawn, START, LINK, one, FRONT);
    join(&drawn, one, NORMAL, END, LINK);
    join(&drawn, one, REVERSE, other, NORMAL);
    join(&drawn, other, FRONT, END + 1, LINK);
    join(&drawn, other, REVERSE, END + 2, LINK);
    return other;
}

/* What is said of the way from 47 with these turnout numbers, where number 255
 * lies reverse, 1 normal and all others unknown. */
static int two_say(uint32_t number, uint32_t other_number, const char *due)
{
    uint32_t other = draw_two_turnouts();
    ask_from(0, 0);
    lay_out_drawn(number);
    given.files[1].bytes[drawn.objects[other].start + IND_TURNOUT_NUMBER] =
        (uint8_t)other_number;
    seal(&given.files[1]);
    ask_from(drawn.objects[START].start, LINK);
    memset(given.lies, IND_LIE_UNKNOWN, sizeof given.lies);
    given.lies[LARGEST_NUMBER] = IND_LIE_REVERSE;
    given.lies[Y_NUMBER] = IND_LIE_NORMAL;
    return says(due);
}

static void shared_examples(void)
{
    ensure(two_say(255, 255, ANSWERED("against-lie", " 95 119")),
           "equal turnout numbers share one lie: reverse, then against it");
    ensure(two_say(255, 1, ANSWERED("boundary", " 95 119 71")),
           "other numbers have their own lies");
    ensure(two_say(255, 254, ANSWERED("boundary", " 95 119 71")),
           "the lie of number 254 is not that of 255");
    ensure(two_say(1, 1, ANSWERED("boundary", " 95 59")),
           "number 1 lies normal, and 0 is not asked");
    ensure(two_say(254, 255, ANSWERED("unknown-lie", " 95")),
           "the lie of number 255 is not that of 254");
}

/* ---- the form of the cases */

/* The head of a case of some question with so many lies, and so many bytes of
 * its second string, of which none is written. */
static void put_head(FILE *kept, uint32_t question, uint32_t lies,
                     uint32_t second)
{
    uint8_t head[1 + 4 * (NUMBERS + FILES)] = { (uint8_t)question };
    put_four(head, 1 + 4 * AHEAD_LIES, lies);
    put_four(head, 1 + 4 * AHEAD_BYTES, IND_AHEAD_ROOM);
    put_four(head, 1 + 4 * NUMBERS, given.files[0].length);
    put_four(head, 1 + 4 * (NUMBERS + 1), second);
    fwrite(head, 1, sizeof head, kept);
    fwrite(given.files[0].bytes, 1, given.files[0].length, kept);
}

/* So many zeros, which are lies too. */
static void put_zeros(FILE *kept, uint32_t count)
{
    for (; count > 0; count--)
        putc(0, kept);
}

static reading read_first(FILE *kept, asked *ask)
{
    rewind(kept);
    return read_case(kept, ask);
}

static int same_case(const asked *one, const asked *other)
{
    return one->question == other->question
        && memcmp(one->numbers, other->numbers, sizeof one->numbers) == 0
        && one->files[0].length == other->files[0].length
        && one->files[1].length == other->files[1].length
        && memcmp(one->files[1].bytes, other->files[1].bytes,
                  one->files[1].length) == 0
        && memcmp(one->lies, other->lies, IND_LIES) == 0;
}

/* A case of so many bytes of an X.2 and so many lies, all 0, is read to its
 * end, answered so, and the next one is read as it was written. */
static int passed_over(uint32_t bytes, uint32_t lies, const char *due)
{
    static asked ask;
    FILE *kept = tmpfile();
    posed first;
    int right;
    if (kept == NULL)
        return 0;
    put_head(kept, ASK_AHEAD, lies, bytes + lies);
    fwrite(given.files[1].bytes, 1,
           bytes < given.files[1].length ? bytes : given.files[1].length,
           kept);
    if (bytes > given.files[1].length)
        put_zeros(kept, bytes - given.files[1].length);
    put_zeros(kept, lies);
    write_case(kept, &given);
    right = read_first(kept, &ask) == READ_WHOLE
        && ask.files[1].length == bytes;
    first = pose(&ask);
    right = right && prints(&first, due)
        && read_case(kept, &ask) == READ_WHOLE && same_case(&ask, &given)
        && read_case(kept, &ask) == READ_NOTHING_MORE;
    fclose(kept);
    return right;
}

static int reads(uint32_t question, uint32_t lies, uint32_t second,
                 reading due)
{
    static asked ask;
    FILE *kept = tmpfile();
    int right;
    if (kept == NULL)
        return 0;
    put_head(kept, question, lies, second);
    put_zeros(kept, second);
    right = read_first(kept, &ask) == due;
    fclose(kept);
    return right;
}

static void form_examples(void)
{
    enum { Y_LENGTH = 108 };
    make_y(&given.files[1], Y_SECOND_END);
    ask_from(Y_START, 0);
    set_lie(Y_NUMBER, IND_LIE_REVERSE);
    ensure(passed_over(Y_LENGTH, 256, REFUSED("13 0 0")),
           "an X.2 and 256 lies, from offset 0");
    ensure(passed_over(Y_LENGTH, 0, REFUSED("13 0 0")), "an X.2 and no lies");
    ensure(passed_over(0, 256, REFUSED("1 0 2")), "no X.2 and 256 lies");
    ensure(passed_over(IND_LARGEST_FILE + 1, 256, REFUSED("1 0 2")),
           "an X.2 of 65,536 bytes and 256 lies");
    ensure(passed_over(IND_LARGEST_FILE, 256, REFUSED("2 65531 2")),
           "an X.2 of 65,535 bytes and 256 lies: the string is longer");
    ensure(passed_over(Y_LENGTH, 70000, REFUSED("13 0 0")),
           "an X.2 and 70,000 lies");
    ensure(passed_over(70000, 70000, REFUSED("1 0 2")),
           "an X.2 of 70,000 bytes and 70,000 lies");
    ensure(reads(ASK_AHEAD, 256, 255, READ_TOO_MANY_LIES),
           "more lies than bytes");
    ensure(reads(ASK_AHEAD, 0xFFFFFFFF, 300, READ_TOO_MANY_LIES),
           "2^32 - 1 lies, and fewer bytes");
    ensure(reads(ASK_AHEAD, 256, 256, READ_WHOLE), "as many lies as bytes");
    ensure(reads(ASK_PAIR, 256, 255, READ_WHOLE),
           "another question has no lies");
}

/* ---- generated cases */

/* Which stops are reached, which of them with 64 objects, and which refusals
 * of the question there are. */
static void cover_examples(void)
{
    enum { SEED = 9, CASES = 1500 };
    static asked ask;
    generation run = { SEED, 0, CASES, { { [ASK_AHEAD] = 1 }, 1 } };
    int stops = 0, full_stops = 0, numbers = 0;
    for (uint64_t i = run.first; i < run.end; i++) {
        uint8_t out[IND_AHEAD_ROOM];
        posed posed_case;
        ind_ahead found;
        build_case(&run, i, &ask);
        posed_case = pose(&ask);
        found = ask_ahead(&posed_case, out);
        numbers |= 1 << found.answer.number;
        stops |= 1 << found.stop;
        if (found.objects == IND_AHEAD_MOST)
            full_stops |= 1 << found.stop;
    }
    ensure(stops == (1 << IND_STOPS) - 1, "generated cases have each stop");
    ensure(full_stops == (1 << IND_STOPS) - 1 - (1 << IND_NO_STOP),
           "each with 64 objects too");
    ensure(numbers == (1 << (IND_ROOM + 1)) - 1 - (1 << IND_STEPS),
           "and each number up to 15 but 14");
}

void ahead_examples(void)
{
    y_examples();
    question_examples();
    pair_examples();
    way_examples();
    kind_examples();
    shared_examples();
    form_examples();
    cover_examples();
}
