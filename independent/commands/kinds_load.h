/* The kinds of calls of a case of load, as `places` and `each` tell them. */
#ifndef KINDS_LOAD_H
#define KINDS_LOAD_H

#include "answer.h"

enum {
    CALL_NAME_ROOM = 48
};

/* What a call was, of which the core answered so: from the transfer as it was
 * before, and the room, of which so much was lent. */
typedef struct {
    const load_call *call;
    const ind_transfer *before;
    ind_answer answer;
    const uint8_t *room;
    uint32_t lent;
} made_call;

/* For instance `total_over_under_way` of an opening, `longer_form_trailer` of a
 * piece, `early_by_1` of a finishing. */
void name_call(const made_call *made, char name[CALL_NAME_ROOM]);

#endif
