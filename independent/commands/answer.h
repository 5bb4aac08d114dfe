/* The answers of the core to a case, and how they are printed. */
#ifndef ANSWER_H
#define ANSWER_H

#include <stdio.h>

#include "core/core.h"
#include "generator/asked.h"

/* The word that names a kind in an answer. */
const char *kind_name(ind_kind kind);

/* The word that names why a list of what lies ahead stops. */
const char *stop_name(ind_stop stop);

/* The answer's number, place and file; of a case of load those of its last
 * call. */
ind_answer answer_case(const posed *ask);

/* The answer to a case of degrees or of point-degrees. */
ind_degrees ask_degrees(const posed *ask);

/* The answer to a case of ahead; the objects go to the lent bytes, of which
 * there are as many as the core needs. A larger room than that changes
 * nothing. */
ind_ahead ask_ahead(const posed *ask, uint8_t out[IND_AHEAD_ROOM]);

/* A case of load, call by call: the transfer, the calls and how far they were
 * made, and the room. */
typedef struct {
    ind_transfer transfer;
    const uint8_t *calls;
    uint32_t length;
    uint32_t place;
    uint32_t room_size;
    uint8_t room[LOAD_ROOM_MOST];
} loading;

/* With nothing opened, and no call made. */
void begin_loading(loading *of, const posed *ask);

/* The next call, which is not made; 0 where there is none. */
int next_call(loading *of, load_call *call);

/* Makes a call, with as much of the room lent as it says. */
ind_answer make_call(loading *of, const load_call *call);

/* One route, from its count word on: its offsets on one line. */
void print_route_line(FILE *output, const uint16_t *route);

/* So many routes from a list's words, each on one line. */
void print_route_lines(FILE *output, const uint16_t *words, uint32_t routes);

/* A list of routes as yardask prints it: the answer and, where it is not
 * refused, the counts and the routes. */
void print_listing(FILE *output, const ind_routes *found,
                   const uint16_t *words);

/* The whole answer as yardask prints it. */
void print_answer(FILE *output, const posed *ask);

#endif
