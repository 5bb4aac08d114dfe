/* How a call of the loader was answered, and why. */
#include "kinds_load.h"

#include <string.h>

static const char *const number_names[IND_PIECE_NUMBERS] = {
    "station", "type", "version", "total", "trailer", "start", "count"
};

/* A room that is short of the total by one byte, or by more. */
static const char *short_room_name(uint32_t lent, uint32_t total)
{
    return lent + 1 == total ? "room_1_short" : "room_short";
}

/* ---- openings */

static int same_identity(const ind_transfer *transfer,
                         const uint64_t identity[IND_IDENTITY_NUMBERS])
{
    uint32_t alike = 0;
    while (alike < IND_IDENTITY_NUMBERS
           && transfer->identity[alike] == identity[alike])
        alike++;
    return alike == IND_IDENTITY_NUMBERS;
}

/* A granted opening: what it forgets, and whether its total is at an edge. */
static void name_granted(const made_call *made,
                         const uint64_t identity[IND_IDENTITY_NUMBERS],
                         char *name)
{
    uint64_t total = identity[IND_TOTAL_NUMBER];
    const char *forgets = "new", *edge = "";
    if (made->before->opened)
        forgets = same_identity(made->before, identity) ? "anew_same"
                                                        : "anew_other";
    if (total <= IND_X2_LEAST_LENGTH)
        edge = "_least";
    else if (total == IND_LARGEST_FILE)
        edge = "_largest";
    snprintf(name, CALL_NAME_ROOM, "%s%s%s", forgets, edge,
             total == made->lent ? "_just_room" : "");
}

static const char *refused_total(const made_call *made, uint64_t total)
{
    if (total > IND_LARGEST_FILE)
        return "total_over";
    if (total > made->lent)
        return short_room_name(made->lent, (uint32_t)total);
    return "total_under";
}

/* A file type that is neither 1 nor 2, but may be in its low byte. */
static const char *type_name(uint64_t type)
{
    switch (type & 0xFF) {
    case 0: return type == 0 ? "type_0" : "type_low_0";
    case IND_X1_TYPE: return "type_low_1";
    case IND_X2_TYPE: return "type_low_2";
    case IND_X2_TYPE + 1: return "type_3";
    default: return "type_other";
    }
}

static void name_open(const made_call *made, char *name)
{
    uint64_t identity[IND_IDENTITY_NUMBERS];
    const char *after = made->before->opened ? "_under_way" : "";
    opening_numbers(made->call, identity);
    if (made->answer.number == IND_ACCEPTED)
        name_granted(made, identity, name);
    else if (made->answer.number == IND_OUT_OF_RANGE)
        snprintf(name, CALL_NAME_ROOM, "%s%s",
                 type_name(identity[IND_TYPE_NUMBER]), after);
    else
        snprintf(name, CALL_NAME_ROOM, "%s%s",
                 refused_total(made, identity[IND_TOTAL_NUMBER]), after);
}

/* ---- pieces */

/* What is wrong with the number at a place, and where the next begins; a null
 * pointer where it is good. */
static const char *number_fault(const load_call *call, uint32_t *place,
                                uint32_t *number)
{
    enum { LAST_OF_32_BITS = 0x0F };
    const uint8_t *groups = call->bytes + *place;
    uint32_t left = call->length - *place, more = 0;
    while (more < left && groups[more] & IND_GROUP_MORE)
        more++;
    if (more >= IND_GROUPS_MOST)
        return "six_groups";
    if (more == left)
        return "cut_off";
    if (more > 0 && groups[more] == 0)
        return "longer_form";
    if (more == IND_GROUPS_MOST - 1 && groups[more] > LAST_OF_32_BITS)
        return "over_32_bits";
    *number = 0;
    for (uint32_t i = 0; i <= more; i++)
        *number |= (uint32_t)(groups[i] & IND_GROUP_MASK)
            << IND_GROUP_BITS * i;
    *place += more + 1;
    return NULL;
}

/* Takes a piece's numbers, up to a bad one, which it names. */
static const char *take_numbers(const load_call *call, uint32_t *place,
                                uint32_t numbers[IND_PIECE_NUMBERS],
                                uint32_t *which)
{
    const char *fault = NULL;
    *which = 0;
    while (*which < IND_PIECE_NUMBERS
           && (fault = number_fault(call, place, &numbers[*which])) == NULL)
        ++*which;
    return fault;
}

/* How many bytes a piece counts, beside those that follow and those due. */
static const char *count_name(uint32_t count, uint32_t following,
                              uint32_t rest)
{
    if (following == 0)
        return count == 0 ? "no_bytes" : "no_bytes_counted";
    if (count != following)
        return count < following ? "count_low" : "count_high";
    return rest == 0 ? "beyond_whole"
        : count == rest + 1 ? "beyond_by_1"
                            : "beyond";
}

/* The one number that differs, or several. */
static const char *difference(const uint32_t *one, const uint32_t *other,
                              uint32_t count)
{
    uint32_t differ = 0, last = 0;
    for (uint32_t i = 0; i < count; i++)
        if (one[i] != other[i]) {
            differ++;
            last = i;
        }
    return differ == 1 ? number_names[last] : "several";
}

static const char *order_name(uint32_t start, uint32_t due)
{
    if (start < due)
        return start + 1 == due ? "before_by_1" : "before";
    return start == due + 1 ? "after_by_1" : "after";
}

static const char *taken_name(uint32_t start, uint32_t count, uint32_t total)
{
    if (count == total)
        return "whole";
    if (start == 0)
        return count == 1 ? "first_byte" : "first";
    if (start + count == total)
        return count == 1 ? "last_byte" : "last";
    return count == 1 ? "byte" : "middle";
}

/* A piece whose numbers are good. */
static const char *good_numbers_name(const made_call *made,
                                     const uint32_t *numbers,
                                     uint32_t following)
{
    const ind_transfer *before = made->before;
    uint32_t total = before->identity[IND_TOTAL_NUMBER];
    uint32_t start = numbers[IND_START_NUMBER];
    switch (made->answer.number) {
    case IND_PIECE:
        return count_name(numbers[IND_COUNT_NUMBER], following,
                          total - before->due);
    case IND_IDENTITY:
        return before->opened ? difference(before->identity, numbers,
                                           IND_IDENTITY_NUMBERS)
                              : "nothing_opened";
    case IND_ORDER: return order_name(start, before->due);
    case IND_ROOM: return short_room_name(made->lent, total);
    default: return taken_name(start, following, total);
    }
}

static void name_piece(const made_call *made, char *name)
{
    uint32_t numbers[IND_PIECE_NUMBERS], place = 0, which;
    const char *fault = take_numbers(made->call, &place, numbers, &which);
    if (made->call->length == 0)
        strcpy(name, "empty");
    else if (fault != NULL)
        snprintf(name, CALL_NAME_ROOM, "%s_%s", fault, number_names[which]);
    else
        strcpy(name, good_numbers_name(made, numbers,
                                       made->call->length - place));
}

/* ---- finishing */

/* Which file was judged. */
static const char *file_name(const made_call *made)
{
    if (made->before->identity[IND_TYPE_NUMBER] != IND_X1_TYPE)
        return "x2";
    return ind_has_heights(made->room) ? "x1_2" : "x1";
}

/* What of an accepted file isn't the identity's. */
static const char *other_file_name(const made_call *made)
{
    uint32_t total = made->before->identity[IND_TOTAL_NUMBER];
    uint32_t found[IND_IDENTITY_NUMBERS];
    identity_of(made->room, total, found);
    return difference(made->before->identity, found, IND_IDENTITY_NUMBERS);
}

static const char *finish_name(const made_call *made)
{
    const ind_transfer *before = made->before;
    uint32_t total = before->identity[IND_TOTAL_NUMBER];
    switch (made->answer.number) {
    case IND_ORDER:
        if (!before->opened)
            return "nothing_opened";
        return before->due + 1 == total ? "early_by_1" : "early";
    case IND_ROOM: return short_room_name(made->lent, total);
    case IND_IDENTITY: return other_file_name(made);
    default: return file_name(made);
    }
}

void name_call(const made_call *made, char name[CALL_NAME_ROOM])
{
    if (made->call->kind == CALL_OPEN)
        name_open(made, name);
    else if (made->call->kind == CALL_PIECE)
        name_piece(made, name);
    else
        strcpy(name, finish_name(made));
}
