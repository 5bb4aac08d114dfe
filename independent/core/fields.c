/* 01, X.2's 'Fields' and 'Agreement', with what 02's ticket 2 says of balise
 * groups and its ticket 10 of names. A record's fault is given as the field's
 * place in the record. */
#include "fields.h"

#include "name.h"
#include "opening.h"

static int all_zero(const uint8_t *bytes, uint32_t from, uint32_t size)
{
    while (from < size && bytes[from] == 0)
        from++;
    return from == size;
}

/* Whether a name may be empty: a signal's and a siding's may not, a joint's
 * and those of a siding's two exit signals may. */
typedef enum {
    NOT_EMPTY,
    MAY_BE_EMPTY
} emptiness;

static int name_right(const uint8_t *record, uint32_t field,
                      emptiness allowed)
{
    uint64_t bytes = ind_eight(record, field);
    return ind_is_name(bytes) && (bytes != 0 || allowed == MAY_BE_EMPTY);
}

static int code_right(const uint8_t *code)
{
    return code[0] >= IND_CODE_FIRST_LEAST
        && code[0] <= IND_CODE_FIRST_LARGEST
        && code[1] >= IND_CODE_SECOND_LEAST
        && code[1] <= IND_CODE_SECOND_LARGEST
        && code[1] != IND_CODE_SECOND_GAP;
}

/* One to eight two-byte codes, then zeros. */
static int station_name_right(const uint8_t *name)
{
    uint32_t used = 0;
    while (used < IND_STATION_NAME_SIZE && code_right(name + used))
        used += IND_CODE_SIZE;
    return used > 0 && all_zero(name, used, IND_STATION_NAME_SIZE);
}

static int position_right(const uint8_t *record, uint32_t field)
{
    return ind_four(record, field) <= IND_LARGEST_POSITION;
}

static int start_type(uint8_t type)
{
    return type == IND_UP_START || type == IND_DOWN_START;
}

static int end_type(uint8_t type)
{
    return type == IND_UP_END || type == IND_DOWN_END;
}

/* A boundary after its type. */
static uint32_t boundary_fault(const uint8_t *boundary)
{
    uint8_t neighbour = boundary[IND_BOUNDARY_NEIGHBOUR_TYPE];
    if (!start_type(neighbour) && !end_type(neighbour)
        && neighbour != IND_NEIGHBOUR_UNKNOWN)
        return IND_BOUNDARY_NEIGHBOUR_TYPE;
    if (!position_right(boundary, IND_BOUNDARY_POSITION))
        return IND_BOUNDARY_POSITION;
    if (boundary[IND_BOUNDARY_TRACK] == 0)
        return IND_BOUNDARY_TRACK;
    return IND_NO_FAULT;
}

static uint32_t start_fault(const uint8_t *boundary)
{
    return start_type(boundary[IND_TYPE_PLACE]) ? boundary_fault(boundary)
                                                : IND_TYPE_PLACE;
}

static uint32_t end_fault(const uint8_t *boundary)
{
    return end_type(boundary[IND_TYPE_PLACE]) ? boundary_fault(boundary)
                                              : IND_TYPE_PLACE;
}

static uint32_t turnout_fault(const uint8_t *turnout)
{
    if (turnout[IND_TYPE_PLACE] != IND_TURNOUT_TYPE)
        return IND_TYPE_PLACE;
    if (turnout[IND_TURNOUT_NUMBER] == 0)
        return IND_TURNOUT_NUMBER;
    if (turnout[IND_TURNOUT_DIRECTION] > IND_TURNOUT_LARGEST_DIRECTION)
        return IND_TURNOUT_DIRECTION;
    if (!position_right(turnout, IND_TURNOUT_TIP_POSITION))
        return IND_TURNOUT_TIP_POSITION;
    if (!position_right(turnout, IND_TURNOUT_NORMAL_POSITION))
        return IND_TURNOUT_NORMAL_POSITION;
    if (!position_right(turnout, IND_TURNOUT_REVERSE_POSITION))
        return IND_TURNOUT_REVERSE_POSITION;
    if (turnout[IND_TURNOUT_FRONT_TRACK] == 0)
        return IND_TURNOUT_FRONT_TRACK;
    if (turnout[IND_TURNOUT_NORMAL_TRACK] == 0)
        return IND_TURNOUT_NORMAL_TRACK;
    if (turnout[IND_TURNOUT_REVERSE_TRACK] == 0)
        return IND_TURNOUT_REVERSE_TRACK;
    return IND_NO_FAULT;
}

static int attribute_right(uint8_t attribute)
{
    return attribute == IND_ATTRIBUTE_VIRTUAL_OPPOSITE
        || attribute == IND_ATTRIBUTE_PHYSICAL_OPPOSITE
        || attribute == IND_ATTRIBUTE_VIRTUAL_SAME
        || attribute == IND_ATTRIBUTE_PHYSICAL_SAME;
}

/* The three bytes that no balise has for a number. */
static int number_absent(const uint8_t *number)
{
    return ind_two(number, 0) == (IND_NO_BALISE & IND_LARGEST_OF_TWO)
        && number[2] == IND_NO_BALISE >> 2 * IND_BITS_PER_BYTE;
}

static inline uint32_t balise_fault(const uint8_t *balise, uint32_t size)
{
    if (balise[IND_TYPE_PLACE] != IND_BALISE_TYPE)
        return IND_TYPE_PLACE;
    if (number_absent(balise + IND_BALISE_NUMBER))
        return IND_BALISE_NUMBER;
    if (!attribute_right(balise[IND_BALISE_ATTRIBUTE]))
        return IND_BALISE_ATTRIBUTE;
    if (!position_right(balise, IND_BALISE_POSITION))
        return IND_BALISE_POSITION;
    if (balise[IND_BALISE_TRACK] == 0)
        return IND_BALISE_TRACK;
    if (balise[IND_BALISE_GROUP] & IND_GROUP_MIDDLE_BITS)
        return IND_BALISE_GROUP;
    if (size > IND_BALISE_PLAIN_SIZE && balise[size - 1] != IND_MESSAGE_LAST)
        return IND_BALISE_MESSAGE;
    return IND_NO_FAULT;
}

static int signal_byte_right(uint8_t value)
{
    uint32_t type = value & IND_SIGNAL_TYPE_BITS;
    return value >> IND_SIGNAL_DIRECTION_SHIFT <= IND_SIGNAL_LARGEST_DIRECTION
        && (value & IND_SIGNAL_MIDDLE_BITS) == 0
        && type >= IND_SIGNAL_LEAST_TYPE && type <= IND_SIGNAL_LARGEST_TYPE;
}

static uint32_t signal_fault(const uint8_t *signal)
{
    if (signal[IND_TYPE_PLACE] != IND_SIGNAL_TYPE)
        return IND_TYPE_PLACE;
    if (!name_right(signal, IND_SIGNAL_NAME, NOT_EMPTY))
        return IND_SIGNAL_NAME;
    if (!position_right(signal, IND_SIGNAL_POSITION))
        return IND_SIGNAL_POSITION;
    if (signal[IND_SIGNAL_TRACK] == 0)
        return IND_SIGNAL_TRACK;
    if (!signal_byte_right(signal[IND_SIGNAL_BYTE]))
        return IND_SIGNAL_BYTE;
    return IND_NO_FAULT;
}

static uint32_t joint_fault(const uint8_t *joint)
{
    if (joint[IND_TYPE_PLACE] != IND_JOINT_TYPE)
        return IND_TYPE_PLACE;
    if (!name_right(joint, IND_JOINT_NAME, MAY_BE_EMPTY))
        return IND_JOINT_NAME;
    if (!position_right(joint, IND_JOINT_POSITION))
        return IND_JOINT_POSITION;
    if (joint[IND_JOINT_TRACK] == 0)
        return IND_JOINT_TRACK;
    return IND_NO_FAULT;
}

static uint32_t siding_fault(const uint8_t *siding)
{
    if (siding[IND_TYPE_PLACE] != IND_SIDING_TYPE)
        return IND_TYPE_PLACE;
    if (!name_right(siding, IND_SIDING_NAME, NOT_EMPTY))
        return IND_SIDING_NAME;
    if (siding[IND_SIDING_TRACK] == 0)
        return IND_SIDING_TRACK;
    if (!name_right(siding, IND_SIDING_UP_SIGNAL, MAY_BE_EMPTY))
        return IND_SIDING_UP_SIGNAL;
    if (!name_right(siding, IND_SIDING_DOWN_SIGNAL, MAY_BE_EMPTY))
        return IND_SIDING_DOWN_SIGNAL;
    return IND_NO_FAULT;
}

static uint32_t header_fault(const uint8_t *file, const ind_layout *layout)
{
    uint32_t fault = ind_opening_field_fault(file);
    if (fault != IND_NO_FAULT)
        return fault;
    if (!station_name_right(file + IND_STATION_NAME_PLACE))
        return IND_STATION_NAME_PLACE;
    for (uint32_t i = 0; i < layout->starts + layout->ends; i++) {
        uint32_t field = ind_entry_place(layout, i) + IND_ENTRY_TRACK;
        if (file[field] == 0)
            return field;
    }
    return IND_NO_FAULT;
}

/* What the pass over the records is made with, and what it finds for the
 * checks after it: the places where a link may point, the first field of a
 * balise that is at fault, and the first group byte that does not agree. */
typedef struct {
    const uint8_t *file;
    const ind_layout *layout;
    ind_marks *targets;
    uint32_t balise_fault;
    uint32_t group_fault;
} pass;

/* The records of a kind of one size, all of which may be named or none. */
static inline uint32_t kind_fault(pass *over, ind_kind kind, int may_be_named,
                                  uint32_t (*fault_in)(const uint8_t *record))
{
    const uint8_t *file = over->file;
    uint32_t to = over->layout->to[kind];
    uint32_t size = ind_fixed_size(kind);
    for (size_t at = over->layout->from[kind]; at < to; at += size) {
        uint32_t fault = fault_in(file + at);
        if (fault != IND_NO_FAULT)
            return (uint32_t)at + fault;
        if (may_be_named)
            ind_mark(over->targets, at);
    }
    return IND_NO_FAULT;
}

/* A balise of place above 1: its place is at most its count, and the record
 * directly before it is a balise of the same count and a lower place. Before
 * the first balise of all stands a turnout or a boundary; here it stands
 * before itself, and its place is not lower. */
static int member_right(const uint8_t *before, const uint8_t *balise)
{
    return ind_balise_place(balise, 0) <= ind_balise_count(balise, 0)
        && ind_balise_count(before, 0) == ind_balise_count(balise, 0)
        && ind_balise_place(before, 0) < ind_balise_place(balise, 0);
}

/* A balise's fields, and whether it agrees with the one before it. */
static inline void look_at_balise(pass *over, uint32_t at, uint32_t size,
                                  uint32_t before)
{
    const uint8_t *balise = over->file + at;
    uint32_t fault = balise_fault(balise, size);
    if (fault != IND_NO_FAULT && over->balise_fault == IND_NO_FAULT)
        over->balise_fault = at + fault;
    if (ind_balise_place(balise, 0) == 1)
        ind_mark(over->targets, at);
    else if (!member_right(over->file + before, balise)
             && over->group_fault == IND_NO_FAULT)
        over->group_fault = at + IND_BALISE_GROUP;
}

/* All balises while they fit; the start of one that does not. Those without a
 * message are all of one size. */
static uint32_t balises_layout_fault(pass *over)
{
    const uint8_t *file = over->file;
    uint32_t to = over->layout->to[IND_BALISE];
    uint32_t at = over->layout->from[IND_BALISE];
    uint32_t before = at;
    while (ind_balise_fits(file + at, to - at)) {
        uint32_t size = file[at + IND_BALISE_SIZE_BYTE];
        look_at_balise(over, at, size, before);
        before = at;
        at += size;
        while (ind_plain_balise_fits(file + at, to - at)) {
            look_at_balise(over, at, IND_BALISE_PLAIN_SIZE, before);
            before = at;
            at += IND_BALISE_PLAIN_SIZE;
        }
    }
    return at == to ? IND_NO_FAULT : at;
}

/* All records in stored order. */
static uint32_t records_fault(pass *over)
{
    uint32_t fault = kind_fault(over, IND_START_BOUNDARY, 1, start_fault);
    if (fault == IND_NO_FAULT)
        fault = kind_fault(over, IND_END_BOUNDARY, 1, end_fault);
    if (fault == IND_NO_FAULT)
        fault = kind_fault(over, IND_TURNOUT, 1, turnout_fault);
    if (fault == IND_NO_FAULT)
        fault = over->balise_fault;
    if (fault == IND_NO_FAULT)
        fault = kind_fault(over, IND_SIGNAL, 1, signal_fault);
    if (fault == IND_NO_FAULT)
        fault = kind_fault(over, IND_JOINT, 1, joint_fault);
    if (fault == IND_NO_FAULT)
        fault = kind_fault(over, IND_SIDING, 0, siding_fault);
    return fault;
}

/* A header boundary's track equals its record's. */
static uint32_t header_track_fault(const uint8_t *file,
                                   const ind_layout *layout)
{
    uint32_t boundary = layout->header;
    for (uint32_t i = 0; i < layout->starts + layout->ends; i++) {
        uint32_t field = ind_entry_place(layout, i) + IND_ENTRY_TRACK;
        if (file[field] != file[boundary + IND_BOUNDARY_TRACK])
            return field;
        boundary += IND_BOUNDARY_SIZE;
    }
    return IND_NO_FAULT;
}

ind_answer ind_application_contents(const uint8_t *file,
                                    const ind_layout *layout,
                                    ind_marks *targets)
{
    pass over = { file, layout, targets, IND_NO_FAULT, IND_NO_FAULT };
    uint32_t fault;
    ind_no_marks(targets, layout->end);
    fault = balises_layout_fault(&over);
    if (fault != IND_NO_FAULT)
        return ind_says(IND_LAYOUT, fault);
    fault = header_fault(file, layout);
    if (fault == IND_NO_FAULT)
        fault = records_fault(&over);
    if (fault != IND_NO_FAULT)
        return ind_says(IND_FIELD, fault);
    fault = header_track_fault(file, layout);
    if (fault == IND_NO_FAULT)
        fault = over.group_fault;
    return ind_unless(fault, IND_AGREEMENT);
}
