/* 01, the question 'record at an offset': fields of tables 6 to 12. */
#include "record.h"

#include "application.h"
#include "name.h"

static ind_boundary read_boundary(const uint8_t *file, uint32_t start)
{
    ind_boundary boundary = {
        file[start + IND_TYPE_PLACE],
        ind_two(file, start + IND_BOUNDARY_LINK),
        ind_two(file, start + IND_BOUNDARY_NEIGHBOUR_STATION),
        file[start + IND_BOUNDARY_NEIGHBOUR_TYPE],
        file[start + IND_BOUNDARY_NEIGHBOUR_TRACK],
        ind_four(file, start + IND_BOUNDARY_POSITION),
        file[start + IND_BOUNDARY_TRACK]
    };
    return boundary;
}

static ind_turnout read_turnout(const uint8_t *file, uint32_t start)
{
    ind_turnout turnout = {
        file[start + IND_TURNOUT_NUMBER],
        file[start + IND_TURNOUT_DIRECTION],
        ind_four(file, start + IND_TURNOUT_TIP_POSITION),
        ind_four(file, start + IND_TURNOUT_NORMAL_POSITION),
        ind_four(file, start + IND_TURNOUT_REVERSE_POSITION),
        ind_two(file, start + IND_TURNOUT_FRONT),
        ind_two(file, start + IND_TURNOUT_NORMAL),
        ind_two(file, start + IND_TURNOUT_REVERSE),
        file[start + IND_TURNOUT_FRONT_TRACK],
        file[start + IND_TURNOUT_NORMAL_TRACK],
        file[start + IND_TURNOUT_REVERSE_TRACK]
    };
    return turnout;
}

static ind_balise read_balise(const uint8_t *file, uint32_t start)
{
    uint8_t attribute = file[start + IND_BALISE_ATTRIBUTE];
    uint32_t size = file[start + IND_BALISE_SIZE_BYTE];
    ind_balise balise = {
        ind_two(file, start + IND_BALISE_PREVIOUS),
        ind_two(file, start + IND_BALISE_NEXT),
        ind_three(file, start + IND_BALISE_NUMBER),
        size,
        attribute & IND_NATURE_BITS,
        attribute >> IND_DIRECTION_SHIFT,
        ind_four(file, start + IND_BALISE_POSITION),
        file[start + IND_BALISE_TRACK],
        ind_balise_place(file, start),
        ind_balise_count(file, start),
        start + IND_BALISE_MESSAGE,
        size - IND_BALISE_PLAIN_SIZE
    };
    return balise;
}

static ind_signal read_signal(const uint8_t *file, uint32_t start)
{
    uint8_t value = file[start + IND_SIGNAL_BYTE];
    ind_signal signal = {
        ind_two(file, start + IND_SIGNAL_PREVIOUS),
        ind_two(file, start + IND_SIGNAL_NEXT),
        start + IND_SIGNAL_NAME,
        ind_name_bytes(file, start + IND_SIGNAL_NAME),
        ind_four(file, start + IND_SIGNAL_POSITION),
        file[start + IND_SIGNAL_TRACK],
        value >> IND_SIGNAL_DIRECTION_SHIFT,
        value & IND_SIGNAL_TYPE_BITS
    };
    return signal;
}

static ind_joint read_joint(const uint8_t *file, uint32_t start)
{
    ind_joint joint = {
        ind_two(file, start + IND_JOINT_PREVIOUS),
        ind_two(file, start + IND_JOINT_NEXT),
        start + IND_JOINT_NAME,
        ind_name_bytes(file, start + IND_JOINT_NAME),
        ind_four(file, start + IND_JOINT_POSITION),
        file[start + IND_JOINT_TRACK]
    };
    return joint;
}

static ind_siding read_siding(const uint8_t *file, uint32_t start)
{
    ind_siding siding = {
        start + IND_SIDING_NAME,
        ind_name_bytes(file, start + IND_SIDING_NAME),
        file[start + IND_SIDING_TRACK],
        ind_three(file, start + IND_SIDING_UP_BALISE),
        start + IND_SIDING_UP_SIGNAL,
        ind_name_bytes(file, start + IND_SIDING_UP_SIGNAL),
        ind_three(file, start + IND_SIDING_DOWN_BALISE),
        start + IND_SIDING_DOWN_SIGNAL,
        ind_name_bytes(file, start + IND_SIDING_DOWN_SIGNAL)
    };
    return siding;
}

ind_kind ind_starting_at(const uint8_t *file, const ind_layout *layout,
                         uint32_t offset)
{
    ind_object record = { ind_kind_at(layout, offset), 0 };
    if (record.kind == IND_NO_KIND)
        return IND_NO_KIND;
    record.start = layout->from[record.kind];
    if (record.kind == IND_BALISE)
        while (record.start < offset)
            record.start += ind_record_size(file, record);
    else
        record.start = offset
            - (offset - record.start) % ind_fixed_size(record.kind);
    return record.start == offset ? record.kind : IND_NO_KIND;
}

static void read_record(const uint8_t *file, uint32_t start,
                        ind_record *record)
{
    switch (record->kind) {
    case IND_START_BOUNDARY:
    case IND_END_BOUNDARY:
        record->boundary = read_boundary(file, start);
        break;
    case IND_TURNOUT: record->turnout = read_turnout(file, start); break;
    case IND_BALISE: record->balise = read_balise(file, start); break;
    case IND_SIGNAL: record->signal = read_signal(file, start); break;
    case IND_JOINT: record->joint = read_joint(file, start); break;
    case IND_SIDING: record->siding = read_siding(file, start); break;
    default: break;
    }
}

ind_record ind_record_at(const uint8_t *file, size_t length, uint32_t offset)
{
    static const ind_record nothing;
    ind_record record = nothing;
    ind_layout layout;
    record.answer = ind_application(file, length, &layout);
    if (record.answer.number != IND_ACCEPTED)
        return record;
    record.kind = ind_starting_at(file, &layout, offset);
    if (record.kind == IND_NO_KIND)
        record.answer = ind_says(IND_OUT_OF_RANGE, 0);
    else
        read_record(file, offset, &record);
    return record;
}
