/* 01, X.2's layout: where the records of a file stand. */
#ifndef IND_LAYOUT_H
#define IND_LAYOUT_H

#include "answer.h"
#include "tables.h"

/* Where the records stand: for each kind the place of its first record and
 * the place after its last, equal where there is none. */
typedef struct {
    uint32_t starts;
    uint32_t ends;
    uint32_t header;
    uint32_t end;
    uint32_t from[IND_KINDS];
    uint32_t to[IND_KINDS];
} ind_layout;

/* Check 6 and, where it passes, the layout. */
ind_answer ind_application_layout(const uint8_t *file, uint32_t end,
                                  ind_layout *layout);

/* The same, but where it passes the balises are still to be looked at one by
 * one: whether each fits. */
ind_answer ind_application_groups(const uint8_t *file, uint32_t end,
                                  ind_layout *layout);

/* Of the balise group, at least 16 bytes are left for a balise, its size byte
 * is 16 or 18 to 120, and so many are left. */
static inline int ind_balise_fits(const uint8_t *balise, uint32_t left)
{
    uint32_t size;
    if (left < IND_BALISE_PLAIN_SIZE)
        return 0;
    size = balise[IND_BALISE_SIZE_BYTE];
    return size == IND_BALISE_PLAIN_SIZE
        || (size >= IND_BALISE_LEAST_WITH_MESSAGE
            && size <= IND_BALISE_LARGEST && size <= left);
}

/* The same of a balise without a message. */
static inline int ind_plain_balise_fits(const uint8_t *balise, uint32_t left)
{
    return left >= IND_BALISE_PLAIN_SIZE
        && balise[IND_BALISE_SIZE_BYTE] == IND_BALISE_PLAIN_SIZE;
}

/* In a file whose layout is right: */

/* The header's entry of a boundary, counted through starts and ends. */
static inline uint32_t ind_entry_place(const ind_layout *layout,
                                       uint32_t boundary)
{
    uint32_t place = IND_START_ENTRIES_PLACE + IND_ENTRY_SIZE * boundary;
    return boundary < layout->starts ? place : place + IND_COUNT_SIZE;
}

/* The kind whose records stand at a place, IND_NO_KIND in the header and
 * from End on. */
ind_kind ind_kind_at(const ind_layout *layout, uint32_t place);

/* A boundary and a turnout by where they start. */
static inline int ind_boundary_at(const ind_layout *layout, uint32_t start)
{
    return start < layout->to[IND_END_BOUNDARY];
}

static inline int ind_turnout_at(const ind_layout *layout, uint32_t start)
{
    return !ind_boundary_at(layout, start)
        && start < layout->to[IND_TURNOUT];
}

#endif
