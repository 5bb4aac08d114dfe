/* 02, ticket 9: what lies ahead. The way is gone from object to object. Each
 * is entered by its link that names the one before it: in an accepted file
 * there is such a link, and one alone. Nothing is written before the way
 * stops. */
#include "ahead.h"

#include "layout.h"
#include "record.h"
#include "station.h"

/* A turnout's links in field order, and how many links a plain object has. */
enum {
    FRONT = 0,
    NORMAL = 1,
    REVERSE = 2,
    PLAIN_LINKS = 2
};

/* The way ahead: the object last passed, and those listed so far. */
typedef struct {
    const uint8_t *file;
    const ind_layout *layout;
    const uint8_t *lies;
    uint32_t passed;
    uint32_t count;
    uint16_t listed[IND_AHEAD_MOST];
} way;

/* The object that starts at a place. */
static ind_object object_at(const ind_layout *layout, uint32_t start)
{
    return (ind_object){ ind_kind_at(layout, start), start };
}

static uint32_t link_of(const way *ahead, ind_object object, uint32_t index)
{
    return ind_two(ahead->file, ind_link_place(object, index));
}

/* The link that an object is entered by: the one that names the object before
 * it. */
static uint32_t entered_by(const way *ahead, ind_object object,
                           uint32_t before)
{
    uint32_t index = 0;
    while (index + 1 < ind_links(object.kind)
           && link_of(ahead, object, index) != before)
        index++;
    return index;
}

/* Equal turnout numbers share one lie. */
static uint8_t lie_of(const way *ahead, ind_object turnout)
{
    return ahead->lies[ahead->file[turnout.start + IND_TURNOUT_NUMBER]];
}

/* The leg that a known lie is for. */
static uint32_t leg_of(uint8_t lie)
{
    return lie == IND_LIE_NORMAL ? NORMAL : REVERSE;
}

static int is_listed(const way *ahead, uint32_t object)
{
    for (uint32_t i = 0; i < ahead->count; i++)
        if (ahead->listed[i] == object)
            return 1;
    return 0;
}

/* Why what a link names is not listed: a missing link, an object already
 * listed or last passed, a new sixty-fifth. */
static ind_stop stop_before(const way *ahead, uint32_t link)
{
    if (link == 0)
        return IND_STOP_NO_LINK;
    if (link == ahead->passed || is_listed(ahead, link))
        return IND_STOP_REPEATED;
    return ahead->count == IND_AHEAD_MOST ? IND_STOP_FULL : IND_NO_STOP;
}

/* Why the way stops at a turnout: an unknown lie met at the front, or a leg
 * trailed against a known lie. */
static ind_stop stop_at_turnout(uint8_t lie, uint32_t entered)
{
    if (entered == FRONT)
        return lie == IND_LIE_UNKNOWN ? IND_STOP_UNKNOWN_LIE : IND_NO_STOP;
    if (lie == IND_LIE_UNKNOWN || leg_of(lie) == entered)
        return IND_NO_STOP;
    return IND_STOP_AGAINST_LIE;
}

/* Why the way stops at an object that stands last in the list. */
static ind_stop stop_at(const way *ahead, ind_object object, uint32_t entered)
{
    if (ind_is_boundary(object.kind))
        return IND_STOP_BOUNDARY;
    if (object.kind == IND_TURNOUT)
        return stop_at_turnout(lie_of(ahead, object), entered);
    return IND_NO_STOP;
}

/* The link that an object is left by. A turnout entered at the front is left
 * by the leg that it lies for, and entered at a leg by the front; a plain
 * object is left by the link it wasn't entered by. */
static uint32_t left_by(const way *ahead, ind_object object, uint32_t entered)
{
    if (object.kind != IND_TURNOUT)
        return PLAIN_LINKS - 1 - entered;
    return entered == FRONT ? leg_of(lie_of(ahead, object)) : FRONT;
}

/* Lists the objects from a link of the one last passed on, and says why the
 * list stops. */
static ind_stop follow(way *ahead, uint32_t link)
{
    uint32_t before = ahead->passed;
    ind_stop stop;
    while ((stop = stop_before(ahead, link)) == IND_NO_STOP) {
        ind_object object = object_at(ahead->layout, link);
        uint32_t entered = entered_by(ahead, object, before);
        ahead->listed[ahead->count++] = (uint16_t)link;
        stop = stop_at(ahead, object, entered);
        if (stop != IND_NO_STOP)
            return stop;
        before = link;
        link = link_of(ahead, object, left_by(ahead, object, entered));
    }
    return stop;
}

/* Whether an object that can be passed starts at an offset, and has the link:
 * a siding is no such object, nor is a balise of place above 1. */
static int is_left_by(const uint8_t *file, const ind_layout *layout,
                      uint32_t offset, uint32_t link)
{
    ind_kind kind = ind_starting_at(file, layout, offset);
    if (kind == IND_NO_KIND || kind == IND_SIDING)
        return 0;
    if (kind == IND_BALISE && ind_balise_place(file, offset) > 1)
        return 0;
    return link < ind_links(kind);
}

/* 256 bytes, and each is one of the three. */
static int are_lies(const uint8_t *lies, size_t length)
{
    uint32_t right = 0;
    if (length != IND_LIES)
        return 0;
    while (right < IND_LIES && lies[right] <= IND_LIE_UNKNOWN)
        right++;
    return right == IND_LIES;
}

static void write_listed(const way *ahead, uint8_t *out)
{
    for (uint32_t i = 0; i < ahead->count; i++) {
        *out++ = (uint8_t)ahead->listed[i];
        *out++ = (uint8_t)(ahead->listed[i] >> IND_BITS_PER_BYTE);
    }
}

ind_ahead ind_ahead_of(const uint8_t *x1, size_t x1_length, const uint8_t *x2,
                       size_t x2_length, uint32_t offset, uint32_t link,
                       const uint8_t *lies, size_t lies_length, uint8_t *out,
                       size_t room)
{
    ind_ahead found = { { 0, 0, 0 }, IND_NO_STOP, 0 };
    ind_layout layout;
    way ahead;
    found.answer = ind_pair(x1, x1_length, x2, x2_length);
    if (found.answer.number != IND_ACCEPTED)
        return found;
    ind_application_layout(x2, ind_end(x2_length), &layout);
    if (!is_left_by(x2, &layout, offset, link)
        || !are_lies(lies, lies_length)) {
        found.answer = ind_says(IND_OUT_OF_RANGE, 0);
        return found;
    }
    if (room < IND_AHEAD_ROOM) {
        found.answer = ind_says(IND_ROOM, 0);
        return found;
    }
    ahead.file = x2;
    ahead.layout = &layout;
    ahead.lies = lies;
    ahead.passed = offset;
    ahead.count = 0;
    found.stop = follow(&ahead, link_of(&ahead, object_at(&layout, offset),
                                        link));
    found.objects = ahead.count;
    write_listed(&ahead, out);
    return found;
}
