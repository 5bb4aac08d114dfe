/* 01, X.2's 'Links': targets (8), then returns and doubled links (9). By 02's
 * ticket 2 a balise of place above 1 has the links of the balise before it,
 * and no return is due for them. */
#include "links.h"

/* What the pass over the links is made with, and what it finds: the first
 * link that is not returned, or names what an earlier one of its record
 * names, or is not that of the balise before. */
typedef struct {
    const uint8_t *file;
    const ind_marks *targets;
    uint32_t boundaries_end;
    uint32_t turnouts_end;
    uint32_t end;
    uint32_t return_fault;
} pass;

/* Previous and next of a balise, signal or joint stand side by side. */
static inline uint32_t previous_of(uint32_t both)
{
    return both & IND_LARGEST_OF_TWO;
}

static inline uint32_t next_of(uint32_t both)
{
    return both >> 2 * IND_BITS_PER_BYTE;
}

/* Some link of a balise, signal or joint names the place. */
static inline int plain_returned(const uint8_t *record, size_t place)
{
    return ind_two(record, IND_BALISE_PREVIOUS) == place
        || ind_two(record, IND_BALISE_NEXT) == place;
}

/* Some link of a target names the place. */
static inline int returned(const pass *over, size_t target, size_t place)
{
    const uint8_t *record = over->file + target;
    if (target < over->boundaries_end)
        return ind_two(record, IND_BOUNDARY_LINK) == place;
    if (target < over->turnouts_end)
        return ind_two(record, IND_TURNOUT_FRONT) == place
            || ind_two(record, IND_TURNOUT_NORMAL) == place
            || ind_two(record, IND_TURNOUT_REVERSE) == place;
    return plain_returned(record, place);
}

/* Whether a link of a record, not 0, names what it must not. */
static inline int wrong_target(const pass *over, uint32_t record,
                               uint32_t link)
{
    return link == record || link >= over->end
        || !ind_marked(over->targets, link);
}

/* The first fault of check 9 is kept until the end, since every wrong target
 * comes before it. */
static inline void keep_first(pass *over, uint32_t field)
{
    if (over->return_fault == IND_NO_FAULT)
        over->return_fault = field;
}

/* Whether the link at a field of a record names what it must not; 0 names
 * nothing. */
static inline int names_wrongly(pass *over, uint32_t record, uint32_t field,
                                uint32_t link, int doubled)
{
    if (link == 0)
        return 0;
    if (wrong_target(over, record, link))
        return 1;
    if (doubled || !returned(over, link, record))
        keep_first(over, field);
    return 0;
}

/* Boundaries, starts and ends. */
static uint32_t boundaries_fault(pass *over, uint32_t from)
{
    for (uint32_t at = from; at < over->boundaries_end;
         at += IND_BOUNDARY_SIZE) {
        uint32_t field = at + IND_BOUNDARY_LINK;
        uint32_t link = ind_two(over->file + at, IND_BOUNDARY_LINK);
        if (link == 0 || names_wrongly(over, at, field, link, 0))
            return field;
    }
    return IND_NO_FAULT;
}

static uint32_t turnouts_fault(pass *over)
{
    for (uint32_t at = over->boundaries_end; at < over->turnouts_end;
         at += IND_TURNOUT_SIZE) {
        const uint8_t *turnout = over->file + at;
        uint32_t front = ind_two(turnout, IND_TURNOUT_FRONT);
        uint32_t normal = ind_two(turnout, IND_TURNOUT_NORMAL);
        uint32_t reverse = ind_two(turnout, IND_TURNOUT_REVERSE);
        if (names_wrongly(over, at, at + IND_TURNOUT_FRONT, front, 0))
            return at + IND_TURNOUT_FRONT;
        if (names_wrongly(over, at, at + IND_TURNOUT_NORMAL, normal,
                          normal == front))
            return at + IND_TURNOUT_NORMAL;
        if (names_wrongly(over, at, at + IND_TURNOUT_REVERSE, reverse,
                          reverse == front || reverse == normal))
            return at + IND_TURNOUT_REVERSE;
    }
    return IND_NO_FAULT;
}

/* Both links of a balise of place 1, a signal or a joint. */
static inline uint32_t both_fault(pass *over, uint32_t at, uint32_t both)
{
    uint32_t previous = previous_of(both), next = next_of(both);
    if (names_wrongly(over, at, at + IND_BALISE_PREVIOUS, previous, 0))
        return at + IND_BALISE_PREVIOUS;
    if (names_wrongly(over, at, at + IND_BALISE_NEXT, next, next == previous))
        return at + IND_BALISE_NEXT;
    return IND_NO_FAULT;
}

/* Both links of a balise of place above 1, beside those of the balise before
 * it. Where they are equal nothing is left to judge: the targets are those of
 * the balise before, and neither names this one, since no link may. */
static inline uint32_t member_fault(pass *over, uint32_t at, uint32_t both,
                                    uint32_t before)
{
    uint32_t previous = previous_of(both), next = next_of(both);
    if (both == before)
        return IND_NO_FAULT;
    if (previous != 0 && wrong_target(over, at, previous))
        return at + IND_BALISE_PREVIOUS;
    if (next != 0 && wrong_target(over, at, next))
        return at + IND_BALISE_NEXT;
    keep_first(over, previous != previous_of(before)
                         ? at + IND_BALISE_PREVIOUS
                         : at + IND_BALISE_NEXT);
    return IND_NO_FAULT;
}

/* By agreement a balise of place above 1 is never the first. */
static uint32_t balises_fault(pass *over, const ind_layout *layout)
{
    uint32_t to = layout->to[IND_BALISE];
    uint32_t at = layout->from[IND_BALISE];
    uint32_t before = 0;
    while (at < to) {
        const uint8_t *balise = over->file + at;
        uint32_t both = ind_four(balise, IND_BALISE_PREVIOUS);
        uint32_t fault = ind_balise_place(balise, 0) == 1
            ? both_fault(over, at, both)
            : member_fault(over, at, both, before);
        if (fault != IND_NO_FAULT)
            return fault;
        before = both;
        at += balise[IND_BALISE_SIZE_BYTE];
    }
    return IND_NO_FAULT;
}

/* Signals or joints. */
static inline uint32_t plain_fault(pass *over, const ind_layout *layout,
                                   ind_kind kind)
{
    uint32_t to = layout->to[kind];
    uint32_t size = ind_fixed_size(kind);
    for (uint32_t at = layout->from[kind]; at < to; at += size) {
        uint32_t both = ind_four(over->file + at, IND_BALISE_PREVIOUS);
        uint32_t fault = both_fault(over, at, both);
        if (fault != IND_NO_FAULT)
            return fault;
    }
    return IND_NO_FAULT;
}

/* ---- whether all links are right, without the place of one that is not.
 *
 * A link leads on, to a later record, or back. One that leads on has to name
 * a target that returns it, and the return leads back. Where no record names
 * a target twice, each link on has a return of its own; so if as many lead
 * back as on, every link back is such a return, and right as well. */

static inline int not_doubled(size_t link, size_t other)
{
    return link != other || link == 0;
}

/* A link of a record is right if it leads on and is returned, or leads back;
 * ahead is how many more lead on. After a balise, signal or joint come no
 * boundary and no turnout: a target of theirs is plain too. */
static inline int leads(const pass *over, size_t at, size_t link, int plain,
                        uint32_t *ahead)
{
    if (link > at) {
        ++*ahead;
        return link < over->end && ind_marked(over->targets, link)
            && (plain ? plain_returned(over->file + link, at)
                      : returned(over, link, at));
    }
    *ahead -= link != 0;
    return link != at;
}

static int boundaries_right(const pass *over, uint32_t from, uint32_t *ahead)
{
    uint32_t count = 0;
    for (size_t at = from; at < over->boundaries_end;
         at += IND_BOUNDARY_SIZE) {
        size_t link = ind_two(over->file + at, IND_BOUNDARY_LINK);
        if (link == 0 || !leads(over, at, link, 0, &count))
            return 0;
    }
    *ahead += count;
    return 1;
}

static int turnouts_right(const pass *over, uint32_t *ahead)
{
    uint32_t count = 0;
    for (size_t at = over->boundaries_end; at < over->turnouts_end;
         at += IND_TURNOUT_SIZE) {
        const uint8_t *turnout = over->file + at;
        size_t front = ind_two(turnout, IND_TURNOUT_FRONT);
        size_t normal = ind_two(turnout, IND_TURNOUT_NORMAL);
        size_t reverse = ind_two(turnout, IND_TURNOUT_REVERSE);
        if (!not_doubled(front, normal) || !not_doubled(front, reverse)
            || !not_doubled(normal, reverse)
            || !leads(over, at, front, 0, &count)
            || !leads(over, at, normal, 0, &count)
            || !leads(over, at, reverse, 0, &count))
            return 0;
    }
    *ahead += count;
    return 1;
}

/* Both links of a balise of place 1, a signal or a joint. */
static inline int both_right(const pass *over, size_t at, uint32_t *ahead)
{
    size_t previous = ind_two(over->file + at, IND_BALISE_PREVIOUS);
    size_t next = ind_two(over->file + at, IND_BALISE_NEXT);
    return not_doubled(previous, next) && leads(over, at, previous, 1, ahead)
        && leads(over, at, next, 1, ahead);
}

/* A balise of place above 1 has both links of the one before it. */
static inline int balise_right(const pass *over, size_t at, size_t before,
                               uint32_t *ahead)
{
    const uint8_t *balise = over->file + at;
    return ind_balise_place(balise, 0) == 1
        ? both_right(over, at, ahead)
        : ind_four(balise, IND_BALISE_PREVIOUS)
            == ind_four(over->file + before, IND_BALISE_PREVIOUS);
}

/* Balises without a message are all of one size. */
static int balises_right(const pass *over, const ind_layout *layout,
                         uint32_t *ahead)
{
    const uint8_t *file = over->file;
    size_t to = layout->to[IND_BALISE];
    size_t at = layout->from[IND_BALISE];
    size_t before = at;
    uint32_t count = 0;
    while (at < to) {
        if (!balise_right(over, at, before, &count))
            return 0;
        before = at;
        at += file[at + IND_BALISE_SIZE_BYTE];
        while (at < to
               && file[at + IND_BALISE_SIZE_BYTE] == IND_BALISE_PLAIN_SIZE) {
            if (!balise_right(over, at, before, &count))
                return 0;
            before = at;
            at += IND_BALISE_PLAIN_SIZE;
        }
    }
    *ahead += count;
    return 1;
}

static inline int plain_right(const pass *over, const ind_layout *layout,
                              ind_kind kind, uint32_t *ahead)
{
    size_t to = layout->to[kind];
    size_t size = ind_fixed_size(kind);
    uint32_t count = 0;
    for (size_t at = layout->from[kind]; at < to; at += size)
        if (!both_right(over, at, &count))
            return 0;
    *ahead += count;
    return 1;
}

static int links_right(const pass *over, const ind_layout *layout)
{
    uint32_t ahead = 0;
    return boundaries_right(over, layout->header, &ahead)
        && turnouts_right(over, &ahead)
        && balises_right(over, layout, &ahead)
        && plain_right(over, layout, IND_SIGNAL, &ahead)
        && plain_right(over, layout, IND_JOINT, &ahead) && ahead == 0;
}

ind_answer ind_application_links(const uint8_t *file,
                                 const ind_layout *layout,
                                 const ind_marks *targets)
{
    pass over = { file, targets, layout->to[IND_END_BOUNDARY],
                  layout->to[IND_TURNOUT], layout->end, IND_NO_FAULT };
    uint32_t fault;
    if (links_right(&over, layout))
        return ind_says(IND_ACCEPTED, 0);
    fault = boundaries_fault(&over, layout->header);
    if (fault == IND_NO_FAULT)
        fault = turnouts_fault(&over);
    if (fault == IND_NO_FAULT)
        fault = balises_fault(&over, layout);
    if (fault == IND_NO_FAULT)
        fault = plain_fault(&over, layout, IND_SIGNAL);
    if (fault == IND_NO_FAULT)
        fault = plain_fault(&over, layout, IND_JOINT);
    if (fault != IND_NO_FAULT)
        return ind_says(IND_LINK_TARGET, fault);
    return ind_unless(over.return_fault, IND_LINK_RETURN);
}
