/* Marked records of a file, by where they start. A record has at least 12
 * bytes, so that of eight places in a row at most one is the start of a
 * record: one byte says which, if any. */
#ifndef IND_MARKS_H
#define IND_MARKS_H

#include "bytes.h"

enum {
    IND_PLACES_PER_MARK = 8
};

typedef struct {
    uint8_t starts[(IND_LARGEST_FILE + 1) / IND_PLACES_PER_MARK];
} ind_marks;

static inline void ind_no_marks(ind_marks *marks, uint32_t end)
{
    for (uint32_t i = 0; i <= end / IND_PLACES_PER_MARK; i++)
        marks->starts[i] = 0;
}

/* The mark of a record that starts at a place: not 0. */
static inline uint8_t ind_mark_of(size_t place)
{
    return (uint8_t)(place % IND_PLACES_PER_MARK + 1);
}

static inline void ind_mark(ind_marks *marks, size_t place)
{
    marks->starts[place / IND_PLACES_PER_MARK] = ind_mark_of(place);
}

static inline int ind_marked(const ind_marks *marks, size_t place)
{
    return marks->starts[place / IND_PLACES_PER_MARK] == ind_mark_of(place);
}

#endif
