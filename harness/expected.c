/* What the library has to answer, by the independent core. */
#include "expected.h"

#include "commands/answer.h"

uint32_t values_size_of(uint32_t asked_for)
{
    switch (asked_for) {
    case ASK_TRACK: return YARD_TRACK_SIZE;
    case ASK_POINT: return YARD_POINT_SIZE;
    case ASK_COORDINATE: return YARD_COORDINATE_SIZE;
    case ASK_DEGREES:
    case ASK_POINT_DEGREES: return YARD_DEGREES_SIZE;
    case ASK_RECORD: return YARD_RECORD_SIZE;
    case ASK_ROUTES:
    case ASK_ROUTES2: return YARD_ROUTES_SIZE;
    case ASK_HEADER1: return YARD_HEADER1_SIZE;
    case ASK_HEADER2: return YARD_HEADER2_SIZE;
    default: return 0;
    }
}

/* An answer as the library returns it. */
static uint64_t returned(ind_answer given)
{
    return (uint64_t)given.place << 16 | given.file << 8 | given.number;
}

static void answer(expected *due, ind_answer given)
{
    due->answer = returned(given);
}

/* One value more. */
static void value(expected *due, uint32_t n)
{
    uint8_t *at = due->values + due->values_size;
    for (int i = 0; i < YARD_VALUE_SIZE; i++)
        at[i] = (uint8_t)(n >> 8 * i);
    due->values_size += YARD_VALUE_SIZE;
}

/* A binary64 more: two values, the one with its low bits first. */
static void binary64(expected *due, double number)
{
    uint64_t bits = ind_bits_of(number);
    value(due, (uint32_t)bits);
    value(due, (uint32_t)(bits >> 32));
}

/* Zeros up to so many bytes. */
static void zeros_up_to(expected *due, uint32_t size)
{
    while (due->values_size < size)
        value(due, 0);
}

static void expect_track(const posed *ask, expected *due)
{
    ind_track got = ind_track_at(ask->bytes[0], ask->length[0],
                                 ask->numbers[0]);
    answer(due, got.answer);
    value(due, got.number);
    value(due, got.property);
    value(due, got.start_position);
    value(due, (uint32_t)got.start_latitude);
    value(due, (uint32_t)got.start_longitude);
    value(due, got.end_position);
    value(due, (uint32_t)got.end_latitude);
    value(due, (uint32_t)got.end_longitude);
    value(due, got.first_offset);
    value(due, got.last_offset);
    value(due, got.points);
}

static void expect_point(const posed *ask, expected *due)
{
    ind_point got = ind_point_at(ask->bytes[0], ask->length[0],
                                 ask->numbers[0], ask->numbers[1]);
    answer(due, got.answer);
    value(due, got.position);
    value(due, (uint32_t)got.latitude_increment);
    value(due, (uint32_t)got.longitude_increment);
    value(due, (uint32_t)got.heading);
    value(due, got.near);
    value(due, got.has_height);
    value(due, (uint32_t)got.height);
}

static void expect_coordinate(const posed *ask, expected *due)
{
    ind_coordinate got = ind_coordinate_at(ask->bytes[0], ask->length[0],
                                           ask->numbers[0], ask->numbers[1]);
    answer(due, got.answer);
    value(due, (uint32_t)got.latitude);
    value(due, (uint32_t)got.longitude);
}

static void degrees_values(const ind_degrees *got, expected *due)
{
    answer(due, got->answer);
    value(due, (uint32_t)got->latitude);
    value(due, (uint32_t)got->longitude);
    binary64(due, got->latitude_degrees);
    binary64(due, got->longitude_degrees);
}

static void expect_degrees(const posed *ask, expected *due)
{
    ind_degrees got = ind_degrees_at(ask->bytes[0], ask->length[0],
                                     ask->numbers[0], ask->numbers[1]);
    degrees_values(&got, due);
}

static void expect_point_degrees(const posed *ask, expected *due)
{
    ind_degrees got = ind_point_degrees_at(ask->bytes[0], ask->length[0],
                                           ask->numbers[0], ask->numbers[1]);
    degrees_values(&got, due);
}

static void boundary_values(const ind_boundary *got, expected *due)
{
    value(due, got->type);
    value(due, got->link);
    value(due, got->neighbour_station);
    value(due, got->neighbour_type);
    value(due, got->neighbour_track);
    value(due, got->position);
    value(due, got->track);
}

static void turnout_values(const ind_turnout *got, expected *due)
{
    value(due, got->number);
    value(due, got->direction);
    value(due, got->tip_position);
    value(due, got->normal_position);
    value(due, got->reverse_position);
    value(due, got->front);
    value(due, got->normal);
    value(due, got->reverse);
    value(due, got->front_track);
    value(due, got->normal_track);
    value(due, got->reverse_track);
}

static void balise_values(const ind_balise *got, expected *due)
{
    value(due, got->previous);
    value(due, got->next);
    value(due, got->number);
    value(due, got->size);
    value(due, got->nature);
    value(due, got->direction);
    value(due, got->position);
    value(due, got->track);
    value(due, got->place);
    value(due, got->count);
    value(due, got->message);
}

static void signal_values(const ind_signal *got, expected *due)
{
    value(due, got->previous);
    value(due, got->next);
    value(due, got->name);
    value(due, got->name_bytes);
    value(due, got->position);
    value(due, got->track);
    value(due, got->direction);
    value(due, got->type);
}

static void joint_values(const ind_joint *got, expected *due)
{
    value(due, got->previous);
    value(due, got->next);
    value(due, got->name);
    value(due, got->name_bytes);
    value(due, got->position);
    value(due, got->track);
}

static void siding_values(const ind_siding *got, expected *due)
{
    value(due, got->name);
    value(due, got->name_bytes);
    value(due, got->track);
    value(due, got->up_balise);
    value(due, got->up_signal);
    value(due, got->up_signal_bytes);
    value(due, got->down_balise);
    value(due, got->down_signal);
    value(due, got->down_signal_bytes);
}

static void expect_record(const posed *ask, expected *due)
{
    ind_record got = ind_record_at(ask->bytes[0], ask->length[0],
                                   ask->numbers[0]);
    answer(due, got.answer);
    value(due, (uint32_t)got.kind);
    switch (got.kind) {
    case IND_TURNOUT: turnout_values(&got.turnout, due); break;
    case IND_BALISE: balise_values(&got.balise, due); break;
    case IND_SIGNAL: signal_values(&got.signal, due); break;
    case IND_JOINT: joint_values(&got.joint, due); break;
    case IND_SIDING: siding_values(&got.siding, due); break;
    default: boundary_values(&got.boundary, due); break;
    }
    zeros_up_to(due, YARD_RECORD_SIZE);
}

/* Routes by the core's lister that goes with the question. */
static ind_routes core_routes(const posed *ask, uint16_t *words)
{
    static ind_walks walks;
    if (ask->question == ASK_ROUTES2)
        return ind_routes_flat(ask->bytes[0], ask->length[0],
                               ask->numbers[0], ask->numbers[1],
                               ask->numbers[2], words, ask->numbers[3]);
    return ind_routes_from(ask->bytes[0], ask->length[0], ask->numbers[0],
                           ask->numbers[1], ask->numbers[2], words,
                           ask->numbers[3], &walks);
}

static void expect_routes(const posed *ask, expected *due)
{
    static uint16_t words[ROOM_LARGEST];
    ind_routes got = core_routes(ask, words);
    answer(due, got.answer);
    value(due, got.routes);
    value(due, got.words);
    value(due, got.walks);
    for (uint32_t i = 0; i < got.words; i++) {
        due->words[2 * i] = (uint8_t)words[i];
        due->words[2 * i + 1] = (uint8_t)(words[i] >> 8);
    }
    due->words_size = 2 * got.words;
}

/* Why a list of what lies ahead stops, as the library says it. */
static const uint64_t stops[IND_STOPS] = {
    [IND_STOP_BOUNDARY] = YARD_STOP_BOUNDARY,
    [IND_STOP_NO_LINK] = YARD_STOP_NO_LINK,
    [IND_STOP_UNKNOWN_LIE] = YARD_STOP_UNKNOWN_LIE,
    [IND_STOP_REPEATED] = YARD_STOP_REPEATED,
    [IND_STOP_AGAINST_LIE] = YARD_STOP_AGAINST_LIE,
    [IND_STOP_FULL] = YARD_STOP_FULL
};

/* The stop and the number of objects are part of the number returned; both are
 * 0 in a refusal. */
static void expect_ahead(const posed *ask, expected *due)
{
    const uint32_t *n = ask->numbers;
    ind_ahead got = ind_ahead_of(
        ask->bytes[0], ask->length[0], ask->bytes[1], ask->length[1],
        n[AHEAD_OFFSET], n[AHEAD_LINK], ask->lies, n[AHEAD_LIES], due->words,
        n[AHEAD_BYTES]);
    answer(due, got.answer);
    due->answer |= stops[got.stop] << 48 | (uint64_t)got.objects << 56;
    due->words_size = IND_OFFSET_SIZE * got.objects;
}

static void header_values(const ind_header *got, expected *due)
{
    answer(due, got->answer);
    value(due, got->structure);
    value(due, got->data);
    value(due, got->station);
}

static void expect_header1(const posed *ask, expected *due)
{
    ind_header got = ind_header1(ask->bytes[0], ask->length[0]);
    header_values(&got, due);
}

static void expect_header2(const posed *ask, expected *due)
{
    ind_header got = ind_header2(ask->bytes[0], ask->length[0]);
    header_values(&got, due);
    value(due, got.name);
    value(due, got.name_size);
}

void expect(const posed *ask, expected *due)
{
    due->values_size = 0;
    due->words_size = 0;
    switch (ask->question) {
    case ASK_TRACK: expect_track(ask, due); break;
    case ASK_POINT: expect_point(ask, due); break;
    case ASK_COORDINATE: expect_coordinate(ask, due); break;
    case ASK_DEGREES: expect_degrees(ask, due); break;
    case ASK_POINT_DEGREES: expect_point_degrees(ask, due); break;
    case ASK_RECORD: expect_record(ask, due); break;
    case ASK_ROUTES:
    case ASK_ROUTES2: expect_routes(ask, due); break;
    case ASK_AHEAD: expect_ahead(ask, due); break;
    case ASK_HEADER1: expect_header1(ask, due); break;
    case ASK_HEADER2: expect_header2(ask, due); break;
    default: answer(due, answer_case(ask)); break;
    }
    if (YARD_NUMBER(due->answer) != YARD_ANSWERED)
        due->values_size = due->words_size = 0;
}

/* ---- the loader */

/* The transfer that bytes are the state of: nothing is opened where they are
 * too few, or the first value is not 1. */
static ind_transfer transfer_of(const load_lent *of)
{
    ind_transfer transfer = { 0, { 0 }, 0 };
    if (of->state_length < YARD_LOAD_STATE_SIZE
        || yard_unsigned(of->state, YARD_LOAD_OPENED) != 1)
        return transfer;
    transfer.opened = 1;
    for (uint32_t i = 0; i < IND_IDENTITY_NUMBERS; i++)
        transfer.identity[i] = yard_unsigned(of->state, YARD_LOAD_STATION + i);
    transfer.due = yard_unsigned(of->state, YARD_LOAD_DUE);
    return transfer;
}

/* Its values in their order. */
static void put_transfer(const ind_transfer *transfer, load_lent *of)
{
    put_four(of->state, YARD_VALUE_SIZE * YARD_LOAD_OPENED, 1);
    for (uint32_t i = 0; i < IND_IDENTITY_NUMBERS; i++)
        put_four(of->state, YARD_VALUE_SIZE * (YARD_LOAD_STATION + i),
                 transfer->identity[i]);
    put_four(of->state, YARD_VALUE_SIZE * YARD_LOAD_DUE, transfer->due);
}

/* A state that is too short is no room, as a room that is. */
static ind_answer expect_open(load_lent *of)
{
    ind_transfer transfer = transfer_of(of);
    ind_answer given = ind_load_open(&transfer, of->identity,
                                     of->room_length);
    if (given.number != IND_ACCEPTED)
        return given;
    if (of->state_length < YARD_LOAD_STATE_SIZE)
        return ind_says(IND_ROOM, 0);
    put_transfer(&transfer, of);
    return given;
}

static ind_answer expect_piece(load_lent *of)
{
    ind_transfer transfer = transfer_of(of);
    ind_answer given = ind_load_piece(&transfer, of->piece, of->piece_length,
                                      of->room, of->room_length);
    if (given.number == IND_ACCEPTED)
        put_transfer(&transfer, of);
    return given;
}

uint64_t expect_load(load_lent *of)
{
    ind_transfer transfer = transfer_of(of);
    switch (of->kind) {
    case CALL_OPEN: return returned(expect_open(of));
    case CALL_PIECE: return returned(expect_piece(of));
    default:
        return returned(ind_load_finish(&transfer, of->room,
                                        of->room_length));
    }
}
