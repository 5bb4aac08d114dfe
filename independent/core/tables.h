/* 01, 'X.2, fixed application': sizes, places and values of tables 5 to 12,
 * and what a record is by its kind. */
#ifndef IND_TABLES_H
#define IND_TABLES_H

#include "bytes.h"

/* Table 5: the header. */
enum {
    IND_X2_TYPE = 2,
    IND_X2_LEAST_LENGTH = 69,
    IND_STATION_NAME_PLACE = 7,
    IND_STATION_NAME_SIZE = 16,
    IND_START_COUNT_PLACE = 23,
    IND_START_ENTRIES_PLACE = 24,
    IND_ENTRY_TRACK = 0,
    IND_ENTRY_OFFSET = 1,
    IND_ENTRY_SIZE = 3,
    IND_COUNT_SIZE = 1,
    IND_GROUPS = 5,
    IND_GROUPS_SIZE = IND_GROUPS * IND_OFFSET_SIZE
};

enum {
    IND_TYPE_PLACE = 0,
    IND_LARGEST_TRACK = 255
};

/* Names: object names of 8 bytes, and the station name's two-byte codes. */
enum {
    IND_NAME_SIZE = 8,
    IND_SPACE = 0x20,
    IND_NAME_LARGEST = 0x7E,
    IND_CODE_SIZE = 2,
    IND_CODE_FIRST_LEAST = 0x81,
    IND_CODE_FIRST_LARGEST = 0xFE,
    IND_CODE_SECOND_LEAST = 0x40,
    IND_CODE_SECOND_GAP = 0x7F,
    IND_CODE_SECOND_LARGEST = 0xFE
};

/* Tables 6 and 7: a boundary. */
enum {
    IND_BOUNDARY_LINK = 1,
    IND_BOUNDARY_NEIGHBOUR_STATION = 3,
    IND_BOUNDARY_NEIGHBOUR_TYPE = 5,
    IND_BOUNDARY_NEIGHBOUR_TRACK = 6,
    IND_BOUNDARY_POSITION = 7,
    IND_BOUNDARY_TRACK = 11,
    IND_BOUNDARY_SIZE = 12
};

enum {
    IND_UP_START = 0x00,
    IND_DOWN_START = 0x01,
    IND_UP_END = 0xFF,
    IND_DOWN_END = 0xFE,
    IND_NEIGHBOUR_UNKNOWN = 0x55
};

/* Table 8: a turnout. */
enum {
    IND_TURNOUT_TYPE = 0x06,
    IND_TURNOUT_NUMBER = 1,
    IND_TURNOUT_DIRECTION = 2,
    IND_TURNOUT_TIP_POSITION = 3,
    IND_TURNOUT_NORMAL_POSITION = 7,
    IND_TURNOUT_REVERSE_POSITION = 11,
    IND_TURNOUT_FRONT = 15,
    IND_TURNOUT_NORMAL = 17,
    IND_TURNOUT_REVERSE = 19,
    IND_TURNOUT_FRONT_TRACK = 21,
    IND_TURNOUT_NORMAL_TRACK = 22,
    IND_TURNOUT_REVERSE_TRACK = 23,
    IND_TURNOUT_SIZE = 24,
    IND_TURNOUT_LARGEST_DIRECTION = 1
};

/* Table 9: a balise. */
enum {
    IND_BALISE_TYPE = 0x33,
    IND_BALISE_PREVIOUS = 1,
    IND_BALISE_NEXT = 3,
    IND_BALISE_NUMBER = 5,
    IND_BALISE_SIZE_BYTE = 8,
    IND_BALISE_ATTRIBUTE = 9,
    IND_BALISE_POSITION = 10,
    IND_BALISE_TRACK = 14,
    IND_BALISE_GROUP = 15,
    IND_BALISE_MESSAGE = 16,
    IND_BALISE_PLAIN_SIZE = 16,
    IND_BALISE_LEAST_WITH_MESSAGE = 18,
    IND_BALISE_LARGEST = 120
};

/* The attribute byte: nature in the low two bits, direction in the top two. */
enum {
    IND_NATURE_BITS = 0x03,
    IND_DIRECTION_SHIFT = 6,
    IND_ATTRIBUTE_VIRTUAL_OPPOSITE = 0x40,
    IND_ATTRIBUTE_PHYSICAL_OPPOSITE = 0x41,
    IND_ATTRIBUTE_VIRTUAL_SAME = 0x80,
    IND_ATTRIBUTE_PHYSICAL_SAME = 0x81
};

/* The group byte: place minus 1 low, count minus 1 on top. */
enum {
    IND_GROUP_PLACE_BITS = 0x07,
    IND_GROUP_MIDDLE_BITS = 0x18,
    IND_GROUP_COUNT_SHIFT = 5,
    IND_GROUP_LARGEST = 8
};

enum {
    IND_MESSAGE_LAST = 0xFF
};

/* No balise has this number; a siding's exit balise, for none. */
#define IND_NO_BALISE ((uint32_t)0xFFFFFF)

/* Tables 10 and 11: a signal and a joint are alike up to the track. */
enum {
    IND_SIGNAL_TYPE = 0xC3,
    IND_JOINT_TYPE = 0xC6,
    IND_SIGNAL_PREVIOUS = 1,
    IND_SIGNAL_NEXT = 3,
    IND_SIGNAL_NAME = 5,
    IND_SIGNAL_POSITION = 13,
    IND_SIGNAL_TRACK = 17,
    IND_SIGNAL_BYTE = 18,
    IND_SIGNAL_SIZE = 19,
    IND_JOINT_PREVIOUS = 1,
    IND_JOINT_NEXT = 3,
    IND_JOINT_NAME = 5,
    IND_JOINT_POSITION = 13,
    IND_JOINT_TRACK = 17,
    IND_JOINT_SIZE = 18
};

/* The signal byte: direction on top, type low. */
enum {
    IND_SIGNAL_DIRECTION_SHIFT = 6,
    IND_SIGNAL_LARGEST_DIRECTION = 2,
    IND_SIGNAL_MIDDLE_BITS = 0x30,
    IND_SIGNAL_TYPE_BITS = 0x0F,
    IND_SIGNAL_LEAST_TYPE = 1,
    IND_SIGNAL_LARGEST_TYPE = 5
};

/* Table 12: a siding. */
enum {
    IND_SIDING_TYPE = 0xCC,
    IND_SIDING_NAME = 1,
    IND_SIDING_TRACK = 9,
    IND_SIDING_UP_BALISE = 10,
    IND_SIDING_UP_SIGNAL = 13,
    IND_SIDING_DOWN_BALISE = 21,
    IND_SIDING_DOWN_SIGNAL = 24,
    IND_SIDING_SIZE = 32
};

/* The kinds of records, in stored order. */
typedef enum {
    IND_NO_KIND = 0,
    IND_START_BOUNDARY,
    IND_END_BOUNDARY,
    IND_TURNOUT,
    IND_BALISE,
    IND_SIGNAL,
    IND_JOINT,
    IND_SIDING,
    IND_KINDS
} ind_kind;

/* A record: its kind and where it starts. */
typedef struct {
    ind_kind kind;
    uint32_t start;
} ind_object;

/* The size of every record of this kind, 0 for balises, whose size varies. */
static inline uint32_t ind_fixed_size(ind_kind kind)
{
    switch (kind) {
    case IND_START_BOUNDARY: return IND_BOUNDARY_SIZE;
    case IND_END_BOUNDARY: return IND_BOUNDARY_SIZE;
    case IND_TURNOUT: return IND_TURNOUT_SIZE;
    case IND_SIGNAL: return IND_SIGNAL_SIZE;
    case IND_JOINT: return IND_JOINT_SIZE;
    case IND_SIDING: return IND_SIDING_SIZE;
    default: return 0;
    }
}

static inline uint32_t ind_record_size(const uint8_t *file, ind_object record)
{
    return record.kind == IND_BALISE
        ? file[record.start + IND_BALISE_SIZE_BYTE]
        : ind_fixed_size(record.kind);
}

/* A start or an end boundary. */
static inline int ind_is_boundary(ind_kind kind)
{
    return kind == IND_START_BOUNDARY || kind == IND_END_BOUNDARY;
}

/* How many links a record of this kind has. */
static inline uint32_t ind_links(ind_kind kind)
{
    switch (kind) {
    case IND_START_BOUNDARY: return 1;
    case IND_END_BOUNDARY: return 1;
    case IND_TURNOUT: return 3;
    case IND_SIDING: return 0;
    default: return 2;
    }
}

/* Where a record's link of an index stands, in field order. */
static inline uint32_t ind_link_place(ind_object record, uint32_t index)
{
    uint32_t first = record.kind == IND_TURNOUT ? IND_TURNOUT_FRONT
                                                : IND_BOUNDARY_LINK;
    return record.start + first + IND_OFFSET_SIZE * index;
}

/* A balise's place in its group. */
static inline uint32_t ind_balise_place(const uint8_t *file, uint32_t balise)
{
    return (file[balise + IND_BALISE_GROUP] & IND_GROUP_PLACE_BITS) + 1u;
}

static inline uint32_t ind_balise_count(const uint8_t *file, uint32_t balise)
{
    return (file[balise + IND_BALISE_GROUP] >> IND_GROUP_COUNT_SHIFT) + 1u;
}

#endif
