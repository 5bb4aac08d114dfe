/* Yards that are drawn by hand: objects are put one after another, and
 * joined. */
#ifndef DRAWN_H
#define DRAWN_H

#include <string.h>

#include "core/tables.h"
#include "generator/make.h"

/* The two links of a plain object, in field order. */
enum {
    PREVIOUS = 0,
    NEXT = 1,
    /* A boundary's only one. */
    LINK = 0
};

/* One object more, without links, after those of its kind. A balise has no
 * message, and is alone in its group. */
static inline uint32_t put(yard *made, ind_kind kind)
{
    object *added = &made->objects[++made->count];
    memset(added, 0, sizeof *added);
    added->kind = kind;
    added->size = kind == IND_BALISE ? (uint32_t)IND_BALISE_PLAIN_SIZE
                                     : ind_fixed_size(kind);
    added->order = made->count;
    added->seed = made->count;
    return made->count;
}

/* The first of so many objects of a kind, which stand one after another. */
static inline uint32_t put_several(yard *made, ind_kind kind,
                                   uint32_t several)
{
    uint32_t first = made->count + 1;
    while (several-- > 0)
        put(made, kind);
    return first;
}

static inline void join(yard *made, uint32_t one, uint32_t port,
                        uint32_t other, uint32_t other_port)
{
    made->objects[one].links[port] = other;
    made->objects[other].links[other_port] = one;
}

/* A yard with so many start boundaries, from object 1 on, and after them so
 * many end boundaries. */
static inline void begin(yard *made, uint32_t starts, uint32_t ends)
{
    memset(made, 0, sizeof *made);
    made->data_version = 1;
    made->station = 1;
    put_several(made, IND_START_BOUNDARY, starts);
    put_several(made, IND_END_BOUNDARY, ends);
}

#endif
