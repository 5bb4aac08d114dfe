/* Making right files: track geographies and yards. */
#ifndef MAKE_H
#define MAKE_H

#include "core/tables.h"
#include "random.h"
#include "stored.h"

/* How large a file is wanted. */
typedef enum {
    SIZE_SMALL,
    SIZE_MIDDLE,
    SIZE_LARGE
} size_wanted;

/* A right X.1 of this station, of either structure version. */
void make_geography(source *from, size_wanted size, uint32_t station,
                    stored *file);

/* The same, its track numbers at and beside the edges of the four words of 64
 * numbers that 02's ticket 7 looks tracks up in. Some of the words may have
 * none. Now and then, seldom in a small file, all numbers of the words are
 * there, or all but one or a few. */
void make_edge_geography(source *from, size_wanted size, uint32_t station,
                         stored *file);

/* A point's height, in the two bytes that it takes. */
uint32_t some_height(source *from);

/* Links of a turnout, in field order. */
enum {
    FRONT = 0,
    NORMAL = 1,
    REVERSE = 2,
    PORTS = 3
};

enum {
    NO_OBJECT = 0,
    LARGEST_YARD = 5000
};

/* An object of a yard. Links name objects, from 1; 0 is no link. Order says
 * where it stands among its kind. A balise of place above 1 names number 1 of
 * its group as its first: it stands after it, in the order in which they were
 * added, and is laid out with its links. The fields that no link or size
 * fixes are drawn from the object's own seed, so that they stay when the yard
 * is laid out anew. */
typedef struct {
    ind_kind kind;
    uint32_t links[PORTS];
    uint32_t size;
    uint32_t start;
    uint32_t group_byte;
    uint32_t first;
    uint32_t order;
    uint64_t seed;
} object;

/* Objects from 1 on. Allowed says which kinds may stand in the yard. */
typedef struct {
    uint32_t count;
    object objects[LARGEST_YARD + 1];
    int allowed[IND_KINDS];
    size_wanted size;
    uint32_t bytes;
    uint32_t data_version;
    uint32_t station;
    uint64_t seed;
} yard;

/* What a yard is to look like. */
typedef enum {
    YARD_LINES,
    YARD_TANGLE,
    YARD_LADDER,
    YARD_CROSSOVERS,
    YARD_WYE,
    YARD_BALLOON,
    YARD_DIAMONDS,
    YARD_LONG_LINE,
    /* Not among small yards but for listing routes. */
    YARD_LONG_WAYS,
    YARD_SHAPES,
    /* Only where every boundary is asked for its routes: not among the shapes
     * that are drawn from elsewhere. */
    YARD_PARALLEL = YARD_SHAPES,
    /* Only for what lies ahead of its first object. */
    YARD_AHEAD
} yard_shape;

/* A right yard; which groups it has is drawn too. */
void make_yard(source *from, size_wanted size, uint32_t station, yard *made);

/* A right yard of this shape with turnouts, for listing routes. */
void make_route_yard(source *from, yard_shape shape, size_wanted size,
                     uint32_t station, yard *made);

/* How many objects of a kind a yard has. */
uint32_t count_kind(const yard *made, ind_kind kind);

/* One joint more, linked in between two neighbours where it can be; the data
 * version goes up by one. */
void add_joint(source *from, yard *made);

/* A yard's X.2. Tracks and positions are those of the X.1 given, or any
 * where it is a null pointer. */
void lay_out(yard *made, const stored *geography, stored *file);

#endif
