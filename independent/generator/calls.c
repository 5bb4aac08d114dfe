/* Sequences of calls of the loader: their form, and what the core answers. */
#include "calls.h"

#include <stdio.h>
#include <stdlib.h>
#include <string.h>

#include "core/core.h"
#include "stored.h"

enum {
    FIRST_ROOM = 4096,
    /* A call's head: which call, how much is lent, how many bytes. */
    LENT_PLACE = 1,
    LENGTH_PLACE = 5,
    HEAD_SIZE = 9
};

void add_bytes(sequence *to, const uint8_t *bytes, uint32_t count)
{
    if (to->room - to->length < count) {
        uint32_t room = to->room < FIRST_ROOM ? FIRST_ROOM : to->room;
        while (room - to->length < count && room <= UINT32_MAX / 2)
            room *= 2;
        if (room - to->length < count)
            room = UINT32_MAX;
        to->bytes = realloc(to->bytes, room);
        to->room = room;
        if (to->bytes == NULL) {
            fputs("independent: no memory for a sequence of calls\n", stderr);
            exit(1);
        }
    }
    if (count > 0)
        memcpy(to->bytes + to->length, bytes, count);
    to->length += count;
}

void add_call(sequence *to, const load_call *call)
{
    uint8_t head[HEAD_SIZE];
    head[0] = (uint8_t)call->kind;
    put_four(head, LENT_PLACE, call->lent);
    put_four(head, LENGTH_PLACE, call->length);
    add_bytes(to, head, sizeof head);
    add_bytes(to, call->bytes, call->length);
}

int take_call(const uint8_t *calls, uint32_t length, uint32_t *place,
              load_call *call)
{
    const uint8_t *head = calls + *place;
    uint32_t left = length - *place;
    if (left < HEAD_SIZE)
        return 0;
    call->kind = head[0];
    call->lent = ind_four(head, LENT_PLACE);
    call->length = ind_four(head, LENGTH_PLACE);
    call->bytes = head + HEAD_SIZE;
    if (call->kind < CALL_OPEN || call->kind >= CALL_KINDS
        || call->length > CALL_BYTES_MOST || call->length > left - HEAD_SIZE
        || (call->kind == CALL_OPEN && call->length != OPENING_SIZE))
        return 0;
    *place += HEAD_SIZE + call->length;
    return 1;
}

int are_calls(const uint8_t *calls, uint32_t length)
{
    uint32_t place = 0;
    load_call call;
    while (place < length)
        if (!take_call(calls, length, &place, &call))
            return 0;
    return 1;
}

uint32_t lent_of(const load_call *call, uint32_t room_size)
{
    return call->lent < room_size ? call->lent : room_size;
}

void opening_numbers(const load_call *call,
                     uint64_t identity[IND_IDENTITY_NUMBERS])
{
    for (uint32_t i = 0; i < IND_IDENTITY_NUMBERS; i++)
        identity[i] = ind_four(call->bytes, OPENING_NUMBER_SIZE * i);
}

ind_answer answer_call(ind_transfer *transfer, const load_call *call,
                       uint8_t *room, uint32_t lent)
{
    uint64_t identity[IND_IDENTITY_NUMBERS];
    switch (call->kind) {
    case CALL_OPEN:
        opening_numbers(call, identity);
        return ind_load_open(transfer, identity, lent);
    case CALL_PIECE:
        return ind_load_piece(transfer, call->bytes, call->length, room,
                              lent);
    default: return ind_load_finish(transfer, room, lent);
    }
}

const char *call_name(uint32_t kind)
{
    static const char *const names[CALL_KINDS] = {
        "", "load-open", "load-piece", "load-finish"
    };
    return kind < CALL_KINDS ? names[kind] : "";
}

uint32_t put_groups(uint8_t *to, uint64_t number, uint32_t groups)
{
    uint32_t put = 0;
    do {
        to[put++] = (uint8_t)(number & IND_GROUP_MASK);
        number >>= IND_GROUP_BITS;
        if (number > 0 || put < groups)
            to[put - 1] |= IND_GROUP_MORE;
    } while (number > 0 || put < groups);
    return put;
}

void identity_of(const uint8_t *file, uint32_t length,
                 uint32_t identity[IND_IDENTITY_NUMBERS])
{
    identity[IND_STATION_NUMBER] = ind_two(file, IND_STATION_PLACE);
    identity[IND_TYPE_NUMBER] = file[IND_FILE_TYPE_PLACE];
    identity[IND_VERSION_NUMBER] = ind_two(file, IND_DATA_VERSION_PLACE);
    identity[IND_TOTAL_NUMBER] = length;
    identity[IND_TRAILER_NUMBER] = ind_four(file, ind_end(length));
}
