/* 01, the question 'record at an offset'. */
#ifndef IND_RECORD_H
#define IND_RECORD_H

#include "answer.h"
#include "layout.h"

/* Fields in the order of tables 6 to 12. Names and messages are given as
 * their places in the file and how many bytes they have; an empty name has 0,
 * and its place is that of its field. */
typedef struct {
    uint32_t type;
    uint32_t link;
    uint32_t neighbour_station;
    uint32_t neighbour_type;
    uint32_t neighbour_track;
    uint32_t position;
    uint32_t track;
} ind_boundary;

typedef struct {
    uint32_t number;
    uint32_t direction;
    uint32_t tip_position;
    uint32_t normal_position;
    uint32_t reverse_position;
    uint32_t front;
    uint32_t normal;
    uint32_t reverse;
    uint32_t front_track;
    uint32_t normal_track;
    uint32_t reverse_track;
} ind_turnout;

enum {
    IND_VIRTUAL = 0,
    IND_PHYSICAL = 1
};

enum {
    IND_OPPOSITE = 1,
    IND_SAME = 2
};

typedef struct {
    uint32_t previous;
    uint32_t next;
    uint32_t number;
    uint32_t size;
    uint32_t nature;
    uint32_t direction;
    uint32_t position;
    uint32_t track;
    uint32_t place;
    uint32_t count;
    uint32_t message;
    uint32_t message_size;
} ind_balise;

enum {
    IND_DIRECTION_NONE = 0,
    IND_DIRECTION_DOWN = 1,
    IND_DIRECTION_UP = 2
};

typedef struct {
    uint32_t previous;
    uint32_t next;
    uint32_t name;
    uint32_t name_bytes;
    uint32_t position;
    uint32_t track;
    uint32_t direction;
    uint32_t type;
} ind_signal;

typedef struct {
    uint32_t previous;
    uint32_t next;
    uint32_t name;
    uint32_t name_bytes;
    uint32_t position;
    uint32_t track;
} ind_joint;

typedef struct {
    uint32_t name;
    uint32_t name_bytes;
    uint32_t track;
    uint32_t up_balise;
    uint32_t up_signal;
    uint32_t up_signal_bytes;
    uint32_t down_balise;
    uint32_t down_signal;
    uint32_t down_signal_bytes;
} ind_siding;

/* The kind says which of the parts holds the record; the others are 0. */
typedef struct {
    ind_answer answer;
    ind_kind kind;
    ind_boundary boundary;
    ind_turnout turnout;
    ind_balise balise;
    ind_signal signal;
    ind_joint joint;
    ind_siding siding;
} ind_record;

/* In a file whose layout is right: the kind of the record that starts at an
 * offset, IND_NO_KIND if none. */
ind_kind ind_starting_at(const uint8_t *file, const ind_layout *layout,
                         uint32_t offset);

/* Record at an offset. */
ind_record ind_record_at(const uint8_t *file, size_t length, uint32_t offset);

#endif
