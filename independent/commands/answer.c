/* The answers, as yardask prints them: the first line has number and place
 * (and file for the pair and for what lies ahead), then one name and value per
 * line. Of a sequence of calls each has its line of number and place. */
#include "answer.h"

#include <string.h>

#include "batch.h"
#include "commands.h"

/* The words that the core is lent for routes: at most those of the longest
 * list that there can be, so that a larger room changes nothing. */
enum { LONGEST_LIST = IND_LARGEST_BUDGET * (1 + IND_LARGEST_LIMIT) };
static uint16_t route_words[LONGEST_LIST];

static ind_answer ask_pair(const posed *ask)
{
    return ind_pair(ask->bytes[0], ask->length[0], ask->bytes[1],
                    ask->length[1]);
}

static ind_track ask_track(const posed *ask)
{
    return ind_track_at(ask->bytes[0], ask->length[0], ask->numbers[0]);
}

static ind_point ask_point(const posed *ask)
{
    return ind_point_at(ask->bytes[0], ask->length[0], ask->numbers[0],
                        ask->numbers[1]);
}

static ind_coordinate ask_coordinate(const posed *ask)
{
    return ind_coordinate_at(ask->bytes[0], ask->length[0], ask->numbers[0],
                             ask->numbers[1]);
}

ind_degrees ask_degrees(const posed *ask)
{
    if (ask->question == ASK_DEGREES)
        return ind_degrees_at(ask->bytes[0], ask->length[0], ask->numbers[0],
                              ask->numbers[1]);
    return ind_point_degrees_at(ask->bytes[0], ask->length[0],
                                ask->numbers[0], ask->numbers[1]);
}

static ind_record ask_record(const posed *ask)
{
    return ind_record_at(ask->bytes[0], ask->length[0], ask->numbers[0]);
}

static ind_routes ask_routes(const posed *ask)
{
    static ind_walks walks;
    uint32_t room = ask->numbers[3] < LONGEST_LIST ? ask->numbers[3] : LONGEST_LIST;
    if (ask->question == ASK_ROUTES2)
        return ind_routes_flat(ask->bytes[0], ask->length[0], ask->numbers[0],
                               ask->numbers[1], ask->numbers[2], route_words,
                               room);
    return ind_routes_from(ask->bytes[0], ask->length[0], ask->numbers[0],
                           ask->numbers[1], ask->numbers[2], route_words,
                           room, &walks);
}

ind_ahead ask_ahead(const posed *ask, uint8_t out[IND_AHEAD_ROOM])
{
    const uint32_t *n = ask->numbers;
    uint32_t room =
        n[AHEAD_BYTES] < IND_AHEAD_ROOM ? n[AHEAD_BYTES] : IND_AHEAD_ROOM;
    return ind_ahead_of(ask->bytes[0], ask->length[0], ask->bytes[1],
                        ask->length[1], n[AHEAD_OFFSET], n[AHEAD_LINK],
                        ask->lies, n[AHEAD_LIES], out, room);
}

static ind_header ask_header(const posed *ask)
{
    if (ask->question == ASK_HEADER1)
        return ind_header1(ask->bytes[0], ask->length[0]);
    return ind_header2(ask->bytes[0], ask->length[0]);
}

void begin_loading(loading *of, const posed *ask)
{
    memset(&of->transfer, 0, sizeof of->transfer);
    of->calls = ask->bytes[0];
    of->length = ask->length[0];
    of->place = 0;
    of->room_size = ask->numbers[LOAD_ROOM];
    memset(of->room, LOAD_ROOM_BYTE, of->room_size);
}

int next_call(loading *of, load_call *call)
{
    return of->place < of->length
        && take_call(of->calls, of->length, &of->place, call);
}

ind_answer make_call(loading *of, const load_call *call)
{
    return answer_call(&of->transfer, call, of->room,
                       lent_of(call, of->room_size));
}

/* The answer to the last call of a sequence; accepted where it has none. */
static ind_answer ask_load(const posed *ask)
{
    static loading of;
    ind_answer last = ind_says(IND_ACCEPTED, 0);
    load_call call;
    begin_loading(&of, ask);
    while (next_call(&of, &call))
        last = make_call(&of, &call);
    return last;
}

ind_answer answer_case(const posed *ask)
{
    uint8_t out[IND_AHEAD_ROOM];
    switch (ask->question) {
    case ASK_X1: return ind_x1(ask->bytes[0], ask->length[0]);
    case ASK_X1_VERSION_1:
        return ind_x1_version_1(ask->bytes[0], ask->length[0]);
    case ASK_X2: return ind_x2(ask->bytes[0], ask->length[0]);
    case ASK_PAIR: return ask_pair(ask);
    case ASK_TRACK: return ask_track(ask).answer;
    case ASK_POINT: return ask_point(ask).answer;
    case ASK_COORDINATE: return ask_coordinate(ask).answer;
    case ASK_DEGREES:
    case ASK_POINT_DEGREES: return ask_degrees(ask).answer;
    case ASK_RECORD: return ask_record(ask).answer;
    case ASK_ROUTES:
    case ASK_ROUTES2: return ask_routes(ask).answer;
    case ASK_LOAD: return ask_load(ask);
    case ASK_AHEAD: return ask_ahead(ask, out).answer;
    default: return ask_header(ask).answer;
    }
}

const char *kind_name(ind_kind kind)
{
    static const char *const names[IND_KINDS] = {
        "", "start_boundary", "end_boundary", "turnout", "balise", "signal",
        "joint", "siding"
    };
    return kind < IND_KINDS ? names[kind] : "";
}

const char *stop_name(ind_stop stop)
{
    static const char *const names[IND_STOPS] = {
        "", "boundary", "no-link", "unknown-lie", "repeated", "against-lie",
        "full"
    };
    return stop < IND_STOPS ? names[stop] : "";
}

static void line(FILE *output, const char *name, int64_t value)
{
    fprintf(output, "%s %lld\n", name, (long long)value);
}

static void word_line(FILE *output, const char *name, const char *value)
{
    fprintf(output, "%s %s\n", name, value);
}

static void answer_line(FILE *output, ind_answer answer)
{
    fprintf(output, "answer %lu %lu\n", (unsigned long)answer.number,
            (unsigned long)answer.place);
}

static void pair_line(FILE *output, ind_answer answer)
{
    fprintf(output, "answer %lu %lu %lu\n", (unsigned long)answer.number,
            (unsigned long)answer.place, (unsigned long)answer.file);
}

/* A name's bytes as they stand, `-` where there are none, and on a line of its
 * own how many they are. */
static void name_lines(FILE *output, const char *field, const uint8_t *name,
                       uint32_t bytes)
{
    fprintf(output, "%s ", field);
    if (bytes == 0)
        putc('-', output);
    fwrite(name, 1, bytes, output);
    fprintf(output, "\n%s_bytes %lu\n", field, (unsigned long)bytes);
}

/* Bytes in hexadecimal, `-` where there are none. */
static void hexadecimal_line(FILE *output, const char *field,
                             const uint8_t *bytes, uint32_t size)
{
    fprintf(output, "%s ", field);
    if (size == 0)
        putc('-', output);
    for (uint32_t i = 0; i < size; i++)
        fprintf(output, "%02x", bytes[i]);
    putc('\n', output);
}

/* The 64 bits of a binary64 in hexadecimal, the highest first. */
static void bits_line(FILE *output, const char *field, double number)
{
    fprintf(output, "%s %016llx\n", field,
            (unsigned long long)ind_bits_of(number));
}

static void exit_balise_line(FILE *output, const char *field, uint32_t number)
{
    if (number == IND_NO_BALISE)
        word_line(output, field, "-");
    else
        line(output, field, number);
}

void print_route_line(FILE *output, const uint16_t *route)
{
    for (uint32_t i = 1; i <= route[0]; i++)
        fprintf(output, i == 1 ? "%u" : " %u", (unsigned)route[i]);
    putc('\n', output);
}

void print_route_lines(FILE *output, const uint16_t *words, uint32_t routes)
{
    for (; routes > 0; routes--) {
        print_route_line(output, words);
        words += 1 + words[0];
    }
}

static void print_track(FILE *output, const posed *ask)
{
    ind_track track = ask_track(ask);
    answer_line(output, track.answer);
    if (track.answer.number != IND_ACCEPTED)
        return;
    line(output, "number", track.number);
    line(output, "property", track.property);
    line(output, "start_position", track.start_position);
    line(output, "start_latitude", track.start_latitude);
    line(output, "start_longitude", track.start_longitude);
    line(output, "end_position", track.end_position);
    line(output, "end_latitude", track.end_latitude);
    line(output, "end_longitude", track.end_longitude);
    line(output, "first_offset", track.first_offset);
    line(output, "last_offset", track.last_offset);
    line(output, "points", track.points);
}

static void print_point(FILE *output, const posed *ask)
{
    ind_point point = ask_point(ask);
    answer_line(output, point.answer);
    if (point.answer.number != IND_ACCEPTED)
        return;
    line(output, "position", point.position);
    line(output, "latitude_increment", point.latitude_increment);
    line(output, "longitude_increment", point.longitude_increment);
    line(output, "heading", point.heading);
    line(output, "near", point.near);
    if (point.has_height)
        line(output, "height", point.height);
    else
        word_line(output, "height", "-");
}

static void print_coordinate(FILE *output, const posed *ask)
{
    ind_coordinate coordinate = ask_coordinate(ask);
    answer_line(output, coordinate.answer);
    if (coordinate.answer.number != IND_ACCEPTED)
        return;
    line(output, "latitude", coordinate.latitude);
    line(output, "longitude", coordinate.longitude);
}

static void print_degrees(FILE *output, const posed *ask)
{
    ind_degrees degrees = ask_degrees(ask);
    answer_line(output, degrees.answer);
    if (degrees.answer.number != IND_ACCEPTED)
        return;
    line(output, "latitude", degrees.latitude);
    line(output, "longitude", degrees.longitude);
    bits_line(output, "latitude_degrees", degrees.latitude_degrees);
    bits_line(output, "longitude_degrees", degrees.longitude_degrees);
}

static void print_boundary(FILE *output, const ind_boundary *boundary)
{
    line(output, "type", boundary->type);
    line(output, "link", boundary->link);
    line(output, "neighbour_station", boundary->neighbour_station);
    line(output, "neighbour_type", boundary->neighbour_type);
    line(output, "neighbour_track", boundary->neighbour_track);
    line(output, "position", boundary->position);
    line(output, "track", boundary->track);
}

static void print_turnout(FILE *output, const ind_turnout *turnout)
{
    line(output, "number", turnout->number);
    line(output, "direction", turnout->direction);
    line(output, "tip_position", turnout->tip_position);
    line(output, "normal_position", turnout->normal_position);
    line(output, "reverse_position", turnout->reverse_position);
    line(output, "front", turnout->front);
    line(output, "normal", turnout->normal);
    line(output, "reverse", turnout->reverse);
    line(output, "front_track", turnout->front_track);
    line(output, "normal_track", turnout->normal_track);
    line(output, "reverse_track", turnout->reverse_track);
}

static void print_balise(FILE *output, const uint8_t *file,
                         const ind_balise *balise)
{
    line(output, "previous", balise->previous);
    line(output, "next", balise->next);
    line(output, "number", balise->number);
    line(output, "size", balise->size);
    word_line(output, "nature",
              balise->nature == IND_VIRTUAL ? "virtual" : "physical");
    word_line(output, "direction",
              balise->direction == IND_OPPOSITE ? "opposite" : "same");
    line(output, "position", balise->position);
    line(output, "track", balise->track);
    line(output, "place", balise->place);
    line(output, "count", balise->count);
    hexadecimal_line(output, "message", file + balise->message,
                     balise->message_size);
}

static void print_signal(FILE *output, const uint8_t *file,
                         const ind_signal *signal)
{
    static const char *const directions[] = {
        [IND_DIRECTION_NONE] = "none",
        [IND_DIRECTION_DOWN] = "down",
        [IND_DIRECTION_UP] = "up"
    };
    line(output, "previous", signal->previous);
    line(output, "next", signal->next);
    name_lines(output, "name", file + signal->name, signal->name_bytes);
    line(output, "position", signal->position);
    line(output, "track", signal->track);
    word_line(output, "direction", directions[signal->direction]);
    line(output, "type", signal->type);
}

static void print_joint(FILE *output, const uint8_t *file,
                        const ind_joint *joint)
{
    line(output, "previous", joint->previous);
    line(output, "next", joint->next);
    name_lines(output, "name", file + joint->name, joint->name_bytes);
    line(output, "position", joint->position);
    line(output, "track", joint->track);
}

static void print_siding(FILE *output, const uint8_t *file,
                         const ind_siding *siding)
{
    name_lines(output, "name", file + siding->name, siding->name_bytes);
    line(output, "track", siding->track);
    exit_balise_line(output, "up_balise", siding->up_balise);
    name_lines(output, "up_signal", file + siding->up_signal,
               siding->up_signal_bytes);
    exit_balise_line(output, "down_balise", siding->down_balise);
    name_lines(output, "down_signal", file + siding->down_signal,
               siding->down_signal_bytes);
}

static void print_record(FILE *output, const posed *ask)
{
    ind_record record = ask_record(ask);
    const uint8_t *file = ask->bytes[0];
    answer_line(output, record.answer);
    if (record.answer.number != IND_ACCEPTED)
        return;
    word_line(output, "kind", kind_name(record.kind));
    switch (record.kind) {
    case IND_TURNOUT: print_turnout(output, &record.turnout); break;
    case IND_BALISE: print_balise(output, file, &record.balise); break;
    case IND_SIGNAL: print_signal(output, file, &record.signal); break;
    case IND_JOINT: print_joint(output, file, &record.joint); break;
    case IND_SIDING: print_siding(output, file, &record.siding); break;
    default: print_boundary(output, &record.boundary); break;
    }
}

void print_listing(FILE *output, const ind_routes *found,
                   const uint16_t *words)
{
    answer_line(output, found->answer);
    if (found->answer.number != IND_ACCEPTED)
        return;
    line(output, "routes", found->routes);
    line(output, "words", found->words);
    line(output, "walks", found->walks);
    print_route_lines(output, words, found->routes);
}

static void print_routes(FILE *output, const posed *ask)
{
    ind_routes routes = ask_routes(ask);
    print_listing(output, &routes, route_words);
}

/* The offsets of the objects stand on one line, each after a blank. */
static void print_ahead(FILE *output, const posed *ask)
{
    uint8_t out[IND_AHEAD_ROOM];
    ind_ahead ahead = ask_ahead(ask, out);
    pair_line(output, ahead.answer);
    if (ahead.answer.number != IND_ACCEPTED)
        return;
    word_line(output, "stop", stop_name(ahead.stop));
    fputs("objects", output);
    for (uint32_t i = 0; i < ahead.objects; i++)
        fprintf(output, " %lu",
                (unsigned long)ind_two(out, IND_OFFSET_SIZE * i));
    putc('\n', output);
}

/* The station's name stands in an X.2's header alone. */
static void print_header(FILE *output, const posed *ask)
{
    ind_header header = ask_header(ask);
    const uint8_t *file = ask->bytes[0];
    answer_line(output, header.answer);
    if (header.answer.number != IND_ACCEPTED)
        return;
    line(output, "structure", header.structure);
    line(output, "data", header.data);
    line(output, "station", header.station);
    if (header.name_size > 0)
        hexadecimal_line(output, "name", file + header.name,
                         header.name_size);
}

/* Each call's number and place, the next byte due, 0 with nothing opened, and
 * the checksum of the whole room. */
static void print_load(FILE *output, const posed *ask)
{
    static loading of;
    load_call call;
    begin_loading(&of, ask);
    while (next_call(&of, &call)) {
        ind_answer answer = make_call(&of, &call);
        fprintf(output, "%lu %lu\n", (unsigned long)answer.number,
                (unsigned long)answer.place);
    }
    line(output, "due", of.transfer.opened ? of.transfer.due : 0);
    line(output, "room", ind_checksum(of.room, of.room_size));
}

void print_answer(FILE *output, const posed *ask)
{
    switch (ask->question) {
    case ASK_X1:
    case ASK_X1_VERSION_1:
    case ASK_X2: answer_line(output, answer_case(ask)); break;
    case ASK_PAIR: pair_line(output, ask_pair(ask)); break;
    case ASK_TRACK: print_track(output, ask); break;
    case ASK_POINT: print_point(output, ask); break;
    case ASK_COORDINATE: print_coordinate(output, ask); break;
    case ASK_DEGREES:
    case ASK_POINT_DEGREES: print_degrees(output, ask); break;
    case ASK_RECORD: print_record(output, ask); break;
    case ASK_ROUTES:
    case ASK_ROUTES2: print_routes(output, ask); break;
    case ASK_LOAD: print_load(output, ask); break;
    case ASK_AHEAD: print_ahead(output, ask); break;
    default: print_header(output, ask); break;
    }
}

/* Why a batch cannot be read further. */
static const char *reading_fault(reading got)
{
    if (ferror(stdin))
        return "standard input cannot be read";
    switch (got) {
    case READ_CUT_OFF: return "the input ends inside a case";
    case READ_TOO_MANY_LIES: return "a case has more lies than bytes";
    case READ_LARGE_ROOM: return "a case has a room of more than 65536 bytes";
    case READ_BAD_CALLS:
        return "a case has a bad call, or ends inside a call";
    default: return "a case asks an unknown question";
    }
}

int command_answer(void)
{
    static asked ask;
    reading got;
    while ((got = read_case(stdin, &ask)) == READ_WHOLE) {
        posed given = pose(&ask);
        print_answer(stdout, &given);
        putc('\n', stdout);
    }
    if (got == READ_NOTHING_MORE && !ferror(stdin))
        return RUN_WELL;
    fflush(stdout);
    fprintf(stderr, "independent: %s\n", reading_fault(got));
    return RUN_BAD;
}
