/* How many of the generated cases answer with each number, and at which kind
 * of place. */
#include <stdio.h>
#include <stdlib.h>
#include <string.h>

#include "answer.h"
#include "batch.h"
#include "commands.h"
#include "generation.h"
#include "generator/stand.h"
#include "kinds_load.h"
#include "listings.h"

enum {
    /* 02's ticket 7: track numbers are held as four words of 64. */
    WORD_NUMBERS = 64,
    WORDS = 4,
    /* What a limit of 0 meant before 02's ticket 8. */
    ONCE_DEFAULT_LIMIT = 64,
    /* The name of a place, and of a case with its question and number. */
    PLACE_ROOM = 32,
    NAME_ROOM = 64,
    NAMES_LARGEST = 2000
};

/* How often each number was answered. */
typedef unsigned long number_counts[IND_NUMBERS];

static void print_numbers(const char *name, const number_counts counted)
{
    for (int number = 0; number < IND_NUMBERS; number++)
        if (counted[number] > 0)
            printf("%s %d %lu\n", name, number, counted[number]);
}

/* Of a case of load each call counts, and each kind of call by itself. */
static void count_calls(const posed *ask, number_counts counted[CALL_KINDS])
{
    static loading of;
    load_call call;
    begin_loading(&of, ask);
    while (next_call(&of, &call))
        counted[call.kind][make_call(&of, &call).number]++;
}

int command_kinds(int count, char **words)
{
    static asked ask;
    static number_counts counted[QUESTIONS], calls[CALL_KINDS];
    generation run;
    if (!read_generation(count, words, &run))
        return RUN_MISUSED;
    for (uint64_t i = run.first; i < run.end; i++) {
        posed given;
        build_case(&run, i, &ask);
        given = pose(&ask);
        if (ask.question == ASK_LOAD)
            count_calls(&given, calls);
        else
            counted[ask.question][answer_case(&given).number]++;
    }
    for (uint32_t asked_for = ASK_X1; asked_for < QUESTIONS; asked_for++) {
        print_numbers(question_name(asked_for), counted[asked_for]);
        for (uint32_t kind = CALL_OPEN;
             asked_for == ASK_LOAD && kind < CALL_KINDS; kind++)
            print_numbers(call_name(kind), calls[kind]);
    }
    return RUN_WELL;
}

/* A part of a file and the place in that part. */
static void name_part(char *name, const char *part, uint32_t place)
{
    snprintf(name, PLACE_ROOM, "%s+%lu", part, (unsigned long)place);
}

/* A part of an X.1, and a place in it. */
typedef struct {
    const char *word;
    uint32_t place;
} geography_part;

static geography_part geography_part_of(const uint8_t *bytes, uint32_t place)
{
    uint32_t points = ind_track_place(ind_tracks(bytes));
    if (place < IND_TRACKS_PLACE)
        return (geography_part){ "header", place };
    if (place < points)
        return (geography_part){
            "track", (place - IND_TRACKS_PLACE) % IND_TRACK_SIZE
        };
    return (geography_part){ "point",
                             (place - points) % ind_point_size(bytes) };
}

/* A file of version 2 has a word of its own, and so has one that is too short
 * for that version and not of version 1. */
static void name_geography_place(const stored *file, uint32_t place,
                                 char *name)
{
    const char *two = ind_has_heights(file->bytes) ? "_2" : "";
    const char *brief = file->length < IND_X1_LEAST_LENGTH_2
            && ind_version(file->bytes) != IND_VERSION_1
        ? "short_"
        : "";
    geography_part in = geography_part_of(file->bytes, place);
    if (place >= ind_end(file->length))
        snprintf(name, PLACE_ROOM, "%send%s", brief, two);
    else
        snprintf(name, PLACE_ROOM, "%s%s%s+%lu", brief, in.word, two,
                 (unsigned long)in.place);
}

/* A balise of place above 1, where that is not above its count: other rules
 * hold for it than for number 1 of a group. */
static int is_member(const uint8_t *bytes, ind_object record)
{
    return record.kind == IND_BALISE
        && ind_balise_place(bytes, record.start) > 1
        && ind_balise_place(bytes, record.start)
            <= ind_balise_count(bytes, record.start);
}

/* Why a member is out of sequence; the balise before it is 0 where there is
 * none. */
static const char *sequence_name(const uint8_t *bytes, uint32_t before,
                                 uint32_t balise)
{
    if (before == 0)
        return "member_at_head";
    if (ind_balise_count(bytes, before) != ind_balise_count(bytes, balise))
        return "member_other_count";
    if (ind_balise_place(bytes, before) == ind_balise_place(bytes, balise))
        return "member_equal_place";
    return "member_lower_place";
}

/* How a member's link differs from that of the balise before it. */
static const char *link_name(const uint8_t *bytes, uint32_t before,
                             uint32_t balise, uint32_t field)
{
    if (ind_two(bytes, balise + field) == 0)
        return "member_no_link";
    if (ind_two(bytes, before + field) == 0)
        return "member_new_link";
    return "member_other_link";
}

/* Whether the field at this place of a record is a name. */
static int is_name(ind_kind kind, uint32_t field)
{
    switch (kind) {
    case IND_SIGNAL: return field == IND_SIGNAL_NAME;
    case IND_JOINT: return field == IND_JOINT_NAME;
    case IND_SIDING:
        return field == IND_SIDING_NAME || field == IND_SIDING_UP_SIGNAL
            || field == IND_SIDING_DOWN_SIGNAL;
    default: return 0;
    }
}

/* What is wrong with the bytes of a name's field. Used are those before the
 * first zero. */
typedef struct {
    uint32_t used;
    int low;
    int high;
    int space_first;
    int space_last;
    int after_zero;
} name_faults;

static name_faults faults_of_name(const uint8_t *name)
{
    name_faults seen = { 0, 0, 0, 0, 0, 0 };
    while (seen.used < IND_NAME_SIZE && name[seen.used] != 0)
        seen.used++;
    for (uint32_t i = 0; i < IND_NAME_SIZE; i++) {
        seen.low |= i < seen.used && name[i] < IND_SPACE;
        seen.high |= i < seen.used && name[i] > IND_NAME_LARGEST;
        seen.after_zero |= i > seen.used && name[i] != 0;
    }
    seen.space_first = name[0] == IND_SPACE;
    seen.space_last = seen.used > 0 && name[seen.used - 1] == IND_SPACE;
    return seen;
}

/* How a refused name fails, where it does so in one way alone. */
static const char *name_fault(const uint8_t *name)
{
    name_faults seen = faults_of_name(name);
    int lone = seen.used == 1 && seen.space_first;
    int ways = seen.low + seen.high + seen.after_zero + seen.space_first
        + (seen.space_last && !lone);
    if (ways > 1)
        return "";
    if (seen.used == 0)
        return seen.after_zero ? "_zero_first" : "_empty";
    if (seen.after_zero)
        return "_after_zero";
    if (seen.low)
        return "_low_byte";
    if (seen.high)
        return "_high_byte";
    if (lone)
        return "_lone_space";
    if (seen.space_first)
        return "_space_first";
    return seen.used == IND_NAME_SIZE ? "_full_space_last" : "_space_last";
}

/* A refused field of a record of this kind. */
static void name_field(const uint8_t *record, ind_kind kind, uint32_t field,
                       char *name)
{
    const char *way = is_name(kind, field) ? name_fault(record + field) : "";
    snprintf(name, PLACE_ROOM, "%s%s+%lu", kind_name(kind), way,
             (unsigned long)field);
}

/* The record in which a place stands. Before is the start of the one before it
 * of its kind, or stays where there is none. */
static ind_object record_around(const stored *file, const ind_layout *layout,
                                uint32_t place, uint32_t *before)
{
    ind_kind kind = ind_kind_at(layout, place);
    ind_object record = { kind, layout->from[kind] };
    while (record.start + ind_record_size(file->bytes, record) <= place) {
        *before = record.start;
        record.start += ind_record_size(file->bytes, record);
    }
    return record;
}

static void name_record_place(const stored *file, const ind_layout *layout,
                              ind_answer answer, char *name)
{
    uint32_t before = 0;
    ind_object record = record_around(file, layout, answer.place, &before);
    uint32_t field = answer.place - record.start;
    if (!is_member(file->bytes, record))
        name_field(file->bytes + record.start, record.kind, field, name);
    else if (answer.number == IND_AGREEMENT)
        name_part(name, sequence_name(file->bytes, before, record.start),
                  field);
    else if (answer.number == IND_LINK_RETURN)
        name_part(name, link_name(file->bytes, before, record.start, field),
                  field);
    else
        name_part(name, "member", field);
}

/* Where an X.2's end boundary count stands. */
static uint32_t end_count_place(const stored *file)
{
    uint32_t starts = file->bytes[IND_START_COUNT_PLACE];
    return IND_START_ENTRIES_PLACE + IND_ENTRY_SIZE * starts;
}

/* Where its group offsets stand. */
static uint32_t groups_place(const stored *file)
{
    uint32_t count = end_count_place(file);
    uint32_t ends = file->bytes[count];
    return count + IND_COUNT_SIZE + IND_ENTRY_SIZE * ends;
}

static int in_header(const stored *file, uint32_t place)
{
    return place <= end_count_place(file)
        || place < groups_place(file) + IND_GROUPS_SIZE;
}

/* A place of an X.2's header. */
static void name_header_place(const stored *file, uint32_t place, char *name)
{
    uint32_t ends = end_count_place(file);
    if (place < IND_START_ENTRIES_PLACE)
        name_part(name, "header", place);
    else if (place < ends)
        name_part(name, "start_entry",
                  (place - IND_START_ENTRIES_PLACE) % IND_ENTRY_SIZE);
    else if (place == ends)
        strcpy(name, "end_count");
    else if (place < groups_place(file))
        name_part(name, "end_entry",
                  (place - ends - IND_COUNT_SIZE) % IND_ENTRY_SIZE);
    else
        name_part(name, "groups", place - groups_place(file));
}

/* Whether the header names any group. */
static int any_group(const stored *file)
{
    const uint8_t *offsets = file->bytes + groups_place(file);
    for (uint32_t i = 0; i < IND_GROUPS_SIZE; i++)
        if (offsets[i] != 0)
            return 1;
    return 0;
}

static void name_application_place(const stored *file, ind_answer answer,
                                   char *name)
{
    ind_layout layout;
    uint32_t end = ind_end(file->length);
    if (answer.place >= end)
        strcpy(name, "end");
    else if (in_header(file, answer.place))
        name_header_place(file, answer.place, name);
    else if (answer.number == IND_LAYOUT)
        strcpy(name, any_group(file) ? "balise_start" : "boundaries_end");
    else if (ind_application_layout(file->bytes, end, &layout).number == 0)
        name_record_place(file, &layout, answer, name);
}

/* Whether a question is about an X.2 alone. */
static int of_application(uint32_t question)
{
    return question == ASK_X2 || question == ASK_RECORD
        || asks_routes(question) || question == ASK_HEADER2;
}

/* An answered record that has a name: how many bytes the name has. */
static void name_named_record(const asked *ask, char *name)
{
    const stored *file = &ask->files[0];
    ind_record found =
        ind_record_at(file->bytes, file->length, ask->numbers[0]);
    uint32_t bytes;
    switch (found.kind) {
    case IND_SIGNAL: bytes = found.signal.name_bytes; break;
    case IND_JOINT: bytes = found.joint.name_bytes; break;
    case IND_SIDING: bytes = found.siding.name_bytes; break;
    default: return;
    }
    snprintf(name, PLACE_ROOM, "%s_%lu", kind_name(found.kind),
             (unsigned long)bytes);
}

/* An answered point: whether it has a height, and of which sign. */
static const char *height_name(const asked *ask)
{
    const stored *file = &ask->files[0];
    ind_point found = ind_point_at(file->bytes, file->length, ask->numbers[0],
                                   ask->numbers[1]);
    if (!found.has_height)
        return "height_none";
    if (found.height == INT16_MIN)
        return "height_least";
    if (found.height == INT16_MAX)
        return "height_largest";
    if (found.height == 0)
        return "height_0";
    return found.height < 0 ? "height_negative" : "height_positive";
}

/* Lists as a case asks, but by this limit and budget. The words of the last
 * list stand in list_words. */
static uint16_t list_words[ROOM_LARGEST];

static ind_routes listed(const asked *ask, uint32_t limit, uint32_t budget)
{
    static ind_walks walks;
    const stored *file = &ask->files[0];
    return ind_routes_from(file->bytes, file->length, ask->numbers[0], limit,
                           budget, list_words, ask->numbers[3], &walks);
}

/* How many objects the longest route of a list has, as a word. */
static const char *longest_name(const uint16_t *words, uint32_t routes)
{
    uint32_t longest = 0;
    for (; routes > 0; routes--) {
        longest = words[0] > longest ? words[0] : longest;
        words += 1 + words[0];
    }
    if (longest == 0)
        return "none";
    if (longest <= ONCE_DEFAULT_LIMIT)
        return "up_to_64";
    if (longest < IND_DEFAULT_LIMIT)
        return "65_to_159";
    return longest == IND_DEFAULT_LIMIT ? "160" : "above_160";
}

/* Whether walks go on where the limit ends them. */
static int is_cut(const asked *ask, uint32_t limit, uint32_t walks)
{
    ind_routes longer = listed(ask, limit + 1, IND_LARGEST_BUDGET);
    return limit < IND_LARGEST_LIMIT
        && (longer.answer.number != IND_ACCEPTED || longer.walks > walks);
}

/* An answered listing: whether it was asked with limit 0, whether walks were
 * cut by the limit, and its longest route. */
static void name_listing(const asked *ask, char *name)
{
    int zero = ask->numbers[1] == 0;
    uint32_t limit = zero ? IND_DEFAULT_LIMIT : ask->numbers[1];
    ind_routes found = listed(ask, limit, ask->numbers[2]);
    const char *longest = longest_name(list_words, found.routes);
    snprintf(name, PLACE_ROOM, "%s%s%s", zero ? "limit_0_" : "",
             is_cut(ask, limit, found.walks) ? "cut_" : "", longest);
}

/* A refused listing: whether it was asked with limit 0, whether the budget or
 * the room that is too small is the largest, and whether it is not too small
 * for limit 64. */
static void name_refused_listing(const asked *ask, uint32_t number,
                                 char *name)
{
    int zero = ask->numbers[1] == 0;
    int largest =
        (number == IND_STEPS && ask->numbers[2] == IND_LARGEST_BUDGET)
        || (number == IND_ROOM && ask->numbers[3] == ROOM_LARGEST);
    int once = zero
        && listed(ask, ONCE_DEFAULT_LIMIT, ask->numbers[2]).answer.number
            == IND_ACCEPTED;
    snprintf(name, PLACE_ROOM, "%s%s%s", zero ? "limit_0" : "0",
             largest ? "_largest" : "", once ? "_not_64" : "");
}

/* An answered list of what lies ahead: why it stops, and how many objects it
 * has. */
static void name_stop(const ind_ahead *found, char *name)
{
    const char *many = found->objects == 0 ? "0"
        : found->objects == 1              ? "1"
        : found->objects < IND_AHEAD_MOST  ? "up_to_63"
                                           : "64";
    snprintf(name, PLACE_ROOM, "%s_%s", stop_name(found->stop), many);
}

/* Where an offset stands at which no object starts that can be passed. */
static const char *offset_name(const ind_layout *layout, ind_kind kind,
                               uint32_t offset)
{
    if (kind == IND_SIDING)
        return "siding";
    if (kind == IND_BALISE)
        return "member";
    if (offset > IND_LARGEST_OF_TWO)
        return "offset_above_65535";
    if (offset < layout->header)
        return "offset_in_header";
    return offset < layout->end ? "offset_inside" : "offset_beyond";
}

/* Whether a turnout of an X.2 has this number. */
static int is_turnout_number(const uint8_t *bytes, const ind_layout *layout,
                             uint32_t number)
{
    uint32_t turnout = layout->from[IND_TURNOUT];
    while (turnout < layout->to[IND_TURNOUT]
           && bytes[turnout + IND_TURNOUT_NUMBER] != number)
        turnout += IND_TURNOUT_SIZE;
    return turnout < layout->to[IND_TURNOUT];
}

/* How many lies there are, where that is wrong, and else where the first byte
 * that is none of the three stands. */
static void name_lies(const asked *ask, const ind_layout *layout, char *name)
{
    uint32_t count = ask->numbers[AHEAD_LIES], wrong = 0;
    while (wrong < count && count == IND_LIES
           && ask->lies[wrong] <= IND_LIE_UNKNOWN)
        wrong++;
    if (count != IND_LIES)
        snprintf(name, PLACE_ROOM, "lies_%lu", (unsigned long)count);
    else if (wrong == 0)
        strcpy(name, "lie_at_0");
    else if (is_turnout_number(ask->files[1].bytes, layout, wrong))
        strcpy(name, "lie_of_turnout");
    else
        strcpy(name, "lie_of_none");
}

/* Why what lies ahead is refused by 13; of several causes the first that the
 * paper says. */
static void name_cause(const asked *ask, char *name)
{
    const uint8_t *bytes = ask->files[1].bytes;
    uint32_t offset = ask->numbers[AHEAD_OFFSET];
    ind_layout layout;
    ind_kind kind;
    ind_application_layout(bytes, ind_end(ask->files[1].length), &layout);
    kind = ind_starting_at(bytes, &layout, offset);
    if (kind == IND_NO_KIND || kind == IND_SIDING
        || is_member(bytes, (ind_object){ kind, offset }))
        strcpy(name, offset_name(&layout, kind, offset));
    else if (ask->numbers[AHEAD_LINK] >= ind_links(kind))
        snprintf(name, PLACE_ROOM, "link_of_%s", kind_name(kind));
    else
        name_lies(ask, &layout, name);
}

/* What lies ahead, where the pair is accepted. */
static void name_ahead(const asked *ask, uint32_t number, char *name)
{
    uint8_t out[IND_AHEAD_ROOM];
    posed given = pose(ask);
    ind_ahead found = ask_ahead(&given, out);
    if (number == IND_ACCEPTED)
        name_stop(&found, name);
    else if (number == IND_OUT_OF_RANGE)
        name_cause(ask, name);
    else
        snprintf(name, PLACE_ROOM, "room_%lu",
                 (unsigned long)ask->numbers[AHEAD_BYTES]);
}

/* An answer that is about no place: what was answered, or of an X.1 which
 * version it has. */
static void name_without_place(const asked *ask, uint32_t number, char *name)
{
    int application = of_application(ask->question);
    strcpy(name, "0");
    if (ask->question == ASK_AHEAD)
        name_ahead(ask, number, name);
    else if (ask->question == ASK_RECORD && number == IND_ACCEPTED)
        name_named_record(ask, name);
    else if (asks_routes(ask->question) && number == IND_ACCEPTED)
        name_listing(ask, name);
    else if (asks_routes(ask->question))
        name_refused_listing(ask, number, name);
    else if (first_of(ask->question) == ASK_POINT && number == IND_ACCEPTED)
        strcpy(name, height_name(ask));
    else if (!application && ind_has_heights(ask->files[0].bytes))
        strcpy(name, "version_2");
}

/* Which length is wrong: that of any file, or that of an X.1 of version 2. */
static void name_length(const stored *file, int application, char *name)
{
    int later = !application && file->length >= IND_X1_LEAST_LENGTH
        && file->length <= IND_LARGEST_FILE;
    strcpy(name, later ? "length_of_version_2" : "length");
}

/* Whether an answer of this number is about a place of a file. */
static int about_a_place(uint32_t question, uint32_t number)
{
    return number > IND_LENGTH && number < IND_OUT_OF_RANGE
        && (first_of(question) != ASK_COORDINATE || number < IND_NO_TRACK);
}

/* Whether tracks were looked up by their numbers for this answer. */
static int about_a_track(uint32_t question, uint32_t number)
{
    return (question == ASK_PAIR || first_of(question) == ASK_COORDINATE)
        && (number == IND_ACCEPTED || number == IND_NO_TRACK
            || number == IND_BEYOND_END);
}

/* The track that a record of an X.2 names where the pair is refused at this
 * place: at the track, or at the position that goes with it. */
static uint32_t track_refused(const stored *file, uint32_t place)
{
    ind_layout layout;
    uint32_t before = 0, leg = 0;
    ind_object record;
    ind_application_layout(file->bytes, ind_end(file->length), &layout);
    record = record_around(file, &layout, place, &before);
    while (leg + 1 < LEGS && stand_of(record, leg).track != place
           && stand_of(record, leg).position != place)
        leg++;
    return file->bytes[stand_of(record, leg).track];
}

/* Whether all numbers are there and, of a coordinate, the last is asked. */
static int of_all_numbers(const asked *ask)
{
    return ind_tracks(ask->files[0].bytes) == IND_LARGEST_TRACK
        && (ask->question == ASK_PAIR
            || ask->numbers[0] == IND_LARGEST_TRACK);
}

/* In which of the four words a number stands. */
static void name_word(uint32_t number, char *name)
{
    if (number == 0)
        strcpy(name, ":number_0");
    else if (number > IND_LARGEST_TRACK)
        strcpy(name, ":above_255");
    else
        sprintf(name, ":word_%d", (int)(number / WORD_NUMBERS) + 1);
}

/* In which words the numbers of an X.1 stand. */
static void name_words(const stored *file, char *name)
{
    int present[WORDS] = { 0 };
    for (uint32_t i = 0; i < ind_tracks(file->bytes); i++)
        present[file->bytes[ind_track_place(i) + IND_TRACK_NUMBER]
                / WORD_NUMBERS] = 1;
    strcpy(name, ":words_");
    for (int i = 0; i < WORDS; i++)
        if (present[i])
            sprintf(name + strlen(name), "%d", i + 1);
}

/* Where among the numbers of tracks an answer was looked up. */
static void name_lookup(const asked *ask, ind_answer answer, char *name)
{
    char *after = name + strlen(name);
    if (answer.number == IND_ACCEPTED && of_all_numbers(ask))
        strcpy(name, "all_numbers");
    else if (first_of(ask->question) == ASK_COORDINATE)
        name_word(ask->numbers[0], after);
    else if (answer.number == IND_ACCEPTED)
        name_words(&ask->files[0], after);
    else
        name_word(track_refused(&ask->files[1], answer.place), after);
}

static void name_place(const asked *ask, ind_answer answer, char *name)
{
    uint32_t which = asks_pair(ask->question) && answer.file == IND_FILE_X2;
    int application = which == 1 || of_application(ask->question);
    const stored *file = &ask->files[which];
    if (answer.number == IND_LENGTH)
        name_length(file, application, name);
    else if (!about_a_place(ask->question, answer.number))
        name_without_place(ask, answer.number, name);
    else if (application)
        name_application_place(file, answer, name);
    else
        name_geography_place(file, answer.place, name);
    if (about_a_track(ask->question, answer.number))
        name_lookup(ask, answer, name);
}

/* A count for each question, number and kind of place. */
typedef struct {
    char name[NAME_ROOM];
    unsigned long count;
} named_count;

/* The names of a run's cases, counted. */
static named_count names[NAMES_LARGEST];
static uint32_t names_used;

/* Counts a name once more, and returns its count. */
static unsigned long count_name(const char *name)
{
    uint32_t i = 0;
    while (i < names_used && strcmp(names[i].name, name) != 0)
        i++;
    if (i == NAMES_LARGEST) {
        fputs("independent: more kinds of places than there is room for\n",
              stderr);
        exit(RUN_BAD);
    }
    if (i == names_used) {
        strcpy(names[i].name, name);
        names_used++;
    }
    return ++names[i].count;
}

/* Counts a case by its question, its answer's number and kind of place. Whether
 * it is the first so. */
static int count_case(const asked *ask)
{
    char place[PLACE_ROOM], name[NAME_ROOM];
    posed given = pose(ask);
    ind_answer answer = answer_case(&given);
    name_place(ask, answer, place);
    snprintf(name, NAME_ROOM, "%s %lu %s", question_name(ask->question),
             (unsigned long)answer.number, place);
    return count_name(name) == 1;
}

/* Counts each call of a case of load. Whether some call is the first of its
 * name. */
static int count_each_call(const asked *ask)
{
    static loading of;
    posed given = pose(ask);
    load_call call;
    int first = 0;
    begin_loading(&of, &given);
    while (next_call(&of, &call)) {
        ind_transfer before = of.transfer;
        made_call made = { &call, &before, make_call(&of, &call), of.room,
                           lent_of(&call, of.room_size) };
        char kind[CALL_NAME_ROOM], name[NAME_ROOM];
        name_call(&made, kind);
        snprintf(name, NAME_ROOM, "%s %lu %s", call_name(call.kind),
                 (unsigned long)made.answer.number, kind);
        first |= count_name(name) == 1;
    }
    return first;
}

/* Builds each case of a run and counts its name, or those of its calls; hands
 * each one on that is the first of a name, with its index. */
static void name_cases(const generation *run,
                       void (*first)(const asked *ask, uint64_t index))
{
    static asked ask;
    for (uint64_t i = run->first; i < run->end; i++) {
        build_case(run, i, &ask);
        if (ask.question == ASK_LOAD ? count_each_call(&ask)
                                     : count_case(&ask))
            first(&ask, i);
    }
}

static void pass_over(const asked *ask, uint64_t index)
{
    (void)ask;
    (void)index;
}

/* The cases that were written of a question that comes with a second, by
 * their indexes. */
static struct {
    uint32_t question;
    uint64_t index;
} written[NAMES_LARGEST];
static uint32_t written_count;

static void write_first(const asked *ask, uint64_t index)
{
    write_case(stdout, ask);
    if (second_of(ask->question) == ASK_NOTHING)
        return;
    written[written_count].question = ask->question;
    written[written_count++].index = index;
}

/* Those cases of one question once more, each asked by the second. */
static void write_again(const generation *run, uint32_t question)
{
    static asked ask;
    for (uint32_t i = 0; i < written_count; i++) {
        if (written[i].question != question)
            continue;
        build_case(run, written[i].index, &ask);
        ask.question = second_of(question);
        write_case(stdout, &ask);
    }
}

int command_places(int count, char **words)
{
    generation run;
    if (!read_generation(count, words, &run))
        return RUN_MISUSED;
    name_cases(&run, pass_over);
    for (uint32_t i = 0; i < names_used; i++)
        printf("%s %lu\n", names[i].name, names[i].count);
    return RUN_WELL;
}

/* Behind the first of each name, what is asked of the second lister, and then
 * what is asked in degrees. */
int command_each(int count, char **words)
{
    generation run;
    if (!read_generation(count, words, &run))
        return RUN_MISUSED;
    name_cases(&run, write_first);
    if (run.kinds.asked_for[ASK_ROUTES]) {
        write_again(&run, ASK_ROUTES);
        write_listings(stdout);
    }
    write_again(&run, ASK_COORDINATE);
    write_again(&run, ASK_POINT);
    return RUN_WELL;
}
