/* Damage aimed at X.2: layout, fields, names, agreement, links, balise
 * groups. */
#include "damage.h"

#include <string.h>

#include "core/core.h"
#include "questions.h"

/* What a field holds, and so which values are at its edges. */
typedef enum {
    HOLDS_TYPE,
    HOLDS_LINK,
    HOLDS_ANY,
    HOLDS_NEIGHBOUR_TYPE,
    HOLDS_NUMBER,
    HOLDS_DIRECTION,
    HOLDS_POSITION,
    HOLDS_BALISE_NUMBER,
    HOLDS_ATTRIBUTE,
    HOLDS_GROUP,
    HOLDS_MESSAGE,
    HOLDS_NAME,
    HOLDS_SIGNAL_BYTE
} holding;

typedef struct {
    uint32_t place;
    holding holds;
} field;

static const field boundary_fields[] = {
    { IND_TYPE_PLACE, HOLDS_TYPE },
    { IND_BOUNDARY_LINK, HOLDS_LINK },
    { IND_BOUNDARY_NEIGHBOUR_STATION, HOLDS_ANY },
    { IND_BOUNDARY_NEIGHBOUR_TYPE, HOLDS_NEIGHBOUR_TYPE },
    { IND_BOUNDARY_NEIGHBOUR_TRACK, HOLDS_ANY },
    { IND_BOUNDARY_POSITION, HOLDS_POSITION },
    { IND_BOUNDARY_TRACK, HOLDS_NUMBER }
};

static const field turnout_fields[] = {
    { IND_TYPE_PLACE, HOLDS_TYPE },
    { IND_TURNOUT_NUMBER, HOLDS_NUMBER },
    { IND_TURNOUT_DIRECTION, HOLDS_DIRECTION },
    { IND_TURNOUT_TIP_POSITION, HOLDS_POSITION },
    { IND_TURNOUT_NORMAL_POSITION, HOLDS_POSITION },
    { IND_TURNOUT_REVERSE_POSITION, HOLDS_POSITION },
    { IND_TURNOUT_FRONT, HOLDS_LINK },
    { IND_TURNOUT_NORMAL, HOLDS_LINK },
    { IND_TURNOUT_REVERSE, HOLDS_LINK },
    { IND_TURNOUT_FRONT_TRACK, HOLDS_NUMBER },
    { IND_TURNOUT_NORMAL_TRACK, HOLDS_NUMBER },
    { IND_TURNOUT_REVERSE_TRACK, HOLDS_NUMBER }
};

static const field balise_fields[] = {
    { IND_TYPE_PLACE, HOLDS_TYPE },
    { IND_BALISE_PREVIOUS, HOLDS_LINK },
    { IND_BALISE_NEXT, HOLDS_LINK },
    { IND_BALISE_NUMBER, HOLDS_BALISE_NUMBER },
    { IND_BALISE_ATTRIBUTE, HOLDS_ATTRIBUTE },
    { IND_BALISE_POSITION, HOLDS_POSITION },
    { IND_BALISE_TRACK, HOLDS_NUMBER },
    { IND_BALISE_GROUP, HOLDS_GROUP },
    { IND_BALISE_MESSAGE, HOLDS_MESSAGE }
};

static const field signal_fields[] = {
    { IND_TYPE_PLACE, HOLDS_TYPE },
    { IND_SIGNAL_PREVIOUS, HOLDS_LINK },
    { IND_SIGNAL_NEXT, HOLDS_LINK },
    { IND_SIGNAL_NAME, HOLDS_NAME },
    { IND_SIGNAL_POSITION, HOLDS_POSITION },
    { IND_SIGNAL_TRACK, HOLDS_NUMBER },
    { IND_SIGNAL_BYTE, HOLDS_SIGNAL_BYTE }
};

static const field joint_fields[] = {
    { IND_TYPE_PLACE, HOLDS_TYPE },
    { IND_JOINT_PREVIOUS, HOLDS_LINK },
    { IND_JOINT_NEXT, HOLDS_LINK },
    { IND_JOINT_NAME, HOLDS_NAME },
    { IND_JOINT_POSITION, HOLDS_POSITION },
    { IND_JOINT_TRACK, HOLDS_NUMBER }
};

static const field siding_fields[] = {
    { IND_TYPE_PLACE, HOLDS_TYPE },
    { IND_SIDING_NAME, HOLDS_NAME },
    { IND_SIDING_TRACK, HOLDS_NUMBER },
    { IND_SIDING_UP_BALISE, HOLDS_ANY },
    { IND_SIDING_UP_SIGNAL, HOLDS_NAME },
    { IND_SIDING_DOWN_BALISE, HOLDS_ANY },
    { IND_SIDING_DOWN_SIGNAL, HOLDS_NAME }
};

static field some_field(source *from, ind_kind kind)
{
    switch (kind) {
    case IND_TURNOUT: return ONE_OF(from, turnout_fields);
    case IND_BALISE: return ONE_OF(from, balise_fields);
    case IND_SIGNAL: return ONE_OF(from, signal_fields);
    case IND_JOINT: return ONE_OF(from, joint_fields);
    case IND_SIDING: return ONE_OF(from, siding_fields);
    default: return ONE_OF(from, boundary_fields);
    }
}

/* A start of some other kind: of a siding or of a balise above place 1
 * where there is one. */
static uint32_t unnamable_start(source *from, const stored *file,
                                const ind_layout *layout)
{
    uint32_t balise = layout->from[IND_BALISE];
    if (once_in(from, 2) && layout->from[IND_SIDING] < layout->end)
        return layout->from[IND_SIDING];
    while (balise < layout->to[IND_BALISE]
           && ind_balise_place(file->bytes, balise) == 1)
        balise += file->bytes[balise + IND_BALISE_SIZE_BYTE];
    return balise;
}

/* A link that is none, its own record, beside a record, a record that does
 * not return it, what may not be named, or another link of the record. */
static void poke_link(source *from, stored *file, const ind_layout *layout,
                      ind_object record, uint32_t place)
{
    uint32_t old = ind_two(file->bytes, place);
    uint32_t other = some_record(from, file, layout).start;
    uint32_t sibling = ind_link_place(record, draw(from, 3)
                                                  % ind_links(record.kind));
    uint32_t link;
    switch (draw(from, 10)) {
    case 0: link = 0; break;
    case 1: link = record.start; break;
    case 2: link = old + 1; break;
    case 3: link = other + 1 + draw(from, 15); break;
    case 4: link = unnamable_start(from, file, layout); break;
    case 5:
    case 6: link = ind_two(file->bytes, sibling); break;
    case 7: link = edge_offset(from, layout->end, layout->end); break;
    default: link = other; break;
    }
    put_two(file->bytes, place, link);
}

/* Two links of a record change places: both are still returned. */
static void swap_links(stored *file, ind_object record)
{
    uint32_t first = ind_link_place(record, 0);
    uint32_t last = ind_link_place(record, ind_links(record.kind) - 1);
    uint32_t kept = ind_two(file->bytes, first);
    put_two(file->bytes, first, ind_two(file->bytes, last));
    put_two(file->bytes, last, kept);
}

/* How many bytes of a field stand before its first zero. */
static uint32_t bytes_used(const uint8_t *name)
{
    uint32_t used = 0;
    while (used < IND_NAME_SIZE && name[used] != 0)
        used++;
    return used;
}

/* A byte behind a name and the zero after it. */
static void poke_after_zero(source *from, uint8_t *name)
{
    static const uint8_t behind[] = { 0x01, 0x20, 0x41, 0x7E, 0x80 };
    uint32_t after = bytes_used(name) + 1;
    if (after < IND_NAME_SIZE)
        name[after + draw(from, IND_NAME_SIZE - after)] = ONE_OF(from, behind);
}

/* A space first or last, alone, in the last byte of a full field, after the
 * name or in every byte. */
static void poke_space(source *from, uint8_t *name)
{
    uint32_t used = bytes_used(name);
    switch (draw(from, 6)) {
    case 0: name[0] = IND_SPACE; break;
    case 1: name[used > 0 ? used - 1 : 0] = IND_SPACE; break;
    case 2:
        memset(name, 0, IND_NAME_SIZE);
        name[0] = IND_SPACE;
        break;
    case 3:
        memset(name + used, 0x41, IND_NAME_SIZE - used);
        name[IND_NAME_SIZE - 1] = IND_SPACE;
        break;
    case 4: name[used < IND_NAME_SIZE ? used : 0] = IND_SPACE; break;
    default: memset(name, IND_SPACE, IND_NAME_SIZE); break;
    }
}

/* A name: none, a full one, a space where none may stand, a byte after the
 * end, or a byte at the edges at any place. */
static void poke_name(source *from, uint8_t *name)
{
    static const uint8_t edges[] = { 0x00, 0x01, 0x1F, 0x20, 0x21, 0x7E,
                                     0x7F, 0x80, 0xFF };
    uint32_t used = bytes_used(name);
    switch (draw(from, 9)) {
    case 0: memset(name, 0, IND_NAME_SIZE); break;
    case 1: memset(name + used, 0x41, IND_NAME_SIZE - used); break;
    case 2:
    case 3:
    case 4: poke_space(from, name); break;
    case 5: poke_after_zero(from, name); break;
    case 6: name[draw(from, used)] = ONE_OF(from, edges); break;
    default: name[draw(from, IND_NAME_SIZE)] = ONE_OF(from, edges); break;
    }
}

/* The station name as any bytes: none, a full one, or other bytes first, last
 * or anywhere. */
static void poke_station_bytes(source *from, uint8_t *name)
{
    static const uint8_t edges[] = { 0x00, 0x20, 0x21, 0x7E, 0x7F, 0x80,
                                     0xFF };
    const uint32_t size = IND_STATION_NAME_SIZE;
    switch (draw(from, 6)) {
    case 0: memset(name, 0, size); break;
    case 1: name[0] = ONE_OF(from, edges); break;
    case 2: name[size - 1] = ONE_OF(from, edges); break;
    case 3: name[size - 1] = (uint8_t)(name[size - 1] == 0 ? 0x41 : 0); break;
    case 4: memset(name, 0x41, size); break;
    default: name[draw(from, size)] = ONE_OF(from, edges); break;
    }
}

/* The station name: codes just inside and outside the byte ranges. */
static void poke_station_name(source *from, uint8_t *name)
{
    static const uint8_t firsts[] = { 0x00, 0x41, 0x80, 0x81, 0xFE, 0xFF };
    static const uint8_t seconds[] = { 0x00, 0x3F, 0x40, 0x7E,
                                       0x7F, 0x80, 0xFE, 0xFF };
    uint32_t code = IND_CODE_SIZE
        * draw(from, IND_STATION_NAME_SIZE / IND_CODE_SIZE);
    switch (draw(from, 4)) {
    case 0: poke_station_bytes(from, name); break;
    case 1: name[once_in(from, 2) ? 0 : code] = ONE_OF(from, firsts); break;
    case 2: name[1] = ONE_OF(from, seconds); break;
    default: name[code + 1] = ONE_OF(from, seconds); break;
    }
}

/* A byte at the edges of what the field may hold. */
static uint8_t edge_byte(source *from, holding holds)
{
    static const uint8_t types[] = { 0x00, 0x01, 0xFE, 0xFF, 0x06, 0x33,
                                     0xC3, 0xC6, 0xCC, 0x02, 0xFD, 0x55 };
    static const uint8_t neighbours[] = { 0x00, 0x01, 0x02, 0xFD, 0xFE,
                                          0xFF, 0x54, 0x55, 0x56 };
    static const uint8_t numbers[] = { 0, 0, 1, 255 };
    static const uint8_t directions[] = { 0, 1, 2, 255 };
    static const uint8_t attributes[] = { 0x40, 0x41, 0x42, 0x80, 0x81, 0x82,
                                          0xC0, 0xC1, 0x00, 0x01, 0x44, 0x90,
                                          0x83, 0x43 };
    static const uint8_t groups[] = { 0x00, 0x01, 0x20, 0x21, 0x22, 0xE7,
                                      0xC7, 0xE0, 0x08, 0x10, 0x18, 0xFF };
    static const uint8_t signals[] = { 0x00, 0x01, 0x05, 0x06, 0x0F, 0x41,
                                       0x45, 0x46, 0x81, 0x85, 0x86, 0xC1,
                                       0xC5, 0x11, 0x21, 0x31, 0x80, 0x40 };
    switch (holds) {
    case HOLDS_TYPE: return ONE_OF(from, types);
    case HOLDS_NEIGHBOUR_TYPE: return ONE_OF(from, neighbours);
    case HOLDS_NUMBER: return ONE_OF(from, numbers);
    case HOLDS_DIRECTION: return ONE_OF(from, directions);
    case HOLDS_ATTRIBUTE: return ONE_OF(from, attributes);
    case HOLDS_GROUP: return ONE_OF(from, groups);
    case HOLDS_SIGNAL_BYTE: return ONE_OF(from, signals);
    default: return (uint8_t)draw_bits(from);
    }
}

/* The message's last byte, or any but the last. */
static void poke_message(source *from, uint8_t *balise)
{
    uint32_t size = balise[IND_BALISE_SIZE_BYTE];
    if (size == IND_BALISE_PLAIN_SIZE)
        return;
    if (once_in(from, 4))
        balise[IND_BALISE_MESSAGE + draw(from, size - IND_BALISE_MESSAGE - 1)]
            = 0xFF;
    else
        balise[size - 1] = once_in(from, 2) ? 0xFE : 0x00;
}

static void poke_field(source *from, stored *file, const ind_layout *layout,
                       ind_object record, field poked)
{
    uint8_t *bytes = file->bytes + record.start;
    switch (poked.holds) {
    case HOLDS_LINK:
        poke_link(from, file, layout, record, record.start + poked.place);
        break;
    case HOLDS_POSITION:
        put_four(bytes, poked.place,
                 edge_position(from, ind_four(bytes, poked.place)));
        break;
    case HOLDS_BALISE_NUMBER:
        put_three(bytes, poked.place, IND_NO_BALISE - draw(from, 2));
        break;
    case HOLDS_MESSAGE: poke_message(from, bytes); break;
    case HOLDS_NAME:
        poke_name(from, bytes + poked.place);
        break;
    default:
        bytes[poked.place] = edge_byte(from, poked.holds);
        break;
    }
}

static void poke_record(source *from, stored *file, const ind_layout *layout)
{
    ind_object record = some_record(from, file, layout);
    if (ind_links(record.kind) > 0 && once_in(from, 2)) {
        uint32_t which = draw(from, ind_links(record.kind));
        poke_link(from, file, layout, record, ind_link_place(record, which));
    } else if (ind_links(record.kind) > 1 && once_in(from, 12)) {
        swap_links(file, record);
    } else {
        field poked = some_field(from, record.kind);
        poke_field(from, file, layout, record, poked);
    }
}

/* A name of some signal, joint or siding. Any record, where there is none of
 * these, which stand last. */
static void poke_some_name(source *from, stored *file,
                           const ind_layout *layout)
{
    ind_object record;
    field poked;
    if (layout->from[IND_SIGNAL] == layout->end) {
        poke_record(from, file, layout);
        return;
    }
    do
        record = some_record(from, file, layout);
    while (record.kind < IND_SIGNAL);
    do
        poked = some_field(from, record.kind);
    while (poked.holds != HOLDS_NAME);
    poke_name(from, file->bytes + record.start + poked.place);
}

/* A header boundary's track: none, or another than its record's. */
static void poke_header_track(source *from, stored *file,
                              const ind_layout *layout)
{
    uint32_t which = draw(from, layout->starts + layout->ends);
    uint32_t place = ind_entry_place(layout, which) + IND_ENTRY_TRACK;
    if (once_in(from, 3))
        file->bytes[place] = 0;
    else
        file->bytes[place] ^= (uint8_t)(1 + draw(from, 3));
}

/* A balise's group byte, where there is a balise. */
static void poke_group_byte(source *from, stored *file,
                            const ind_layout *layout)
{
    uint32_t balise = layout->from[IND_BALISE];
    uint32_t skip = draw(from, 4);
    while (skip-- > 0
           && balise + file->bytes[balise + IND_BALISE_SIZE_BYTE]
               < layout->to[IND_BALISE])
        balise += file->bytes[balise + IND_BALISE_SIZE_BYTE];
    if (balise < layout->to[IND_BALISE])
        file->bytes[balise + IND_BALISE_GROUP] = edge_byte(from, HOLDS_GROUP);
}

/* A balise, the one directly before it, and the last of place 1 before it;
 * 0 where there is none. */
typedef struct {
    uint32_t first;
    uint32_t before;
    uint32_t at;
} member;

/* Some balise of place above 1 that has one before it; where there is none,
 * some balise after the first. */
static member some_member(source *from, const stored *file,
                          const ind_layout *layout)
{
    const uint8_t *bytes = file->bytes;
    uint32_t members = 0, others = 0;
    member found = { 0, 0, 0 };
    member seen = { 0, 0, layout->from[IND_BALISE] };
    while (seen.at < layout->to[IND_BALISE]) {
        int above = ind_balise_place(bytes, seen.at) > 1;
        if (seen.before != 0
            && (above ? once_in(from, ++members)
                      : members == 0 && once_in(from, ++others)))
            found = seen;
        if (!above)
            seen.first = seen.at;
        seen.before = seen.at;
        seen.at += bytes[seen.at + IND_BALISE_SIZE_BYTE];
    }
    return found;
}

/* Another count than a balise has. */
static uint32_t other_count(source *from, const uint8_t *balise)
{
    uint32_t more = 1 + draw(from, IND_GROUP_LARGEST - 1);
    return 1 + (ind_balise_count(balise, 0) - 1 + more) % IND_GROUP_LARGEST;
}

/* A place out of sequence: that of the balise before, a lower one, the two
 * exchanged, or one of another count. */
static void poke_sequence(source *from, uint8_t *before, uint8_t *balise)
{
    uint8_t kept = balise[IND_BALISE_GROUP];
    switch (draw(from, 4)) {
    case 0: balise[IND_BALISE_GROUP] = before[IND_BALISE_GROUP]; break;
    case 1:
        put_group(balise, 1 + draw(from, ind_balise_place(before, 0)),
                  ind_balise_count(before, 0));
        break;
    case 2:
        balise[IND_BALISE_GROUP] = before[IND_BALISE_GROUP];
        before[IND_BALISE_GROUP] = kept;
        break;
    default:
        put_group(balise, ind_balise_place(balise, 0),
                  other_count(from, balise));
        break;
    }
}

/* The first balise of all becomes one of place above 1. */
static void poke_head(source *from, uint8_t *balise)
{
    uint32_t count = (uint32_t)draw_between(from, 2, IND_GROUP_LARGEST);
    put_group(balise, (uint32_t)draw_between(from, 2, count), count);
}

/* A balise comes next in the group of the one before it, whatever its own
 * was. */
static void join_group(const uint8_t *before, uint8_t *balise)
{
    uint32_t place = ind_balise_place(before, 0);
    uint32_t count = ind_balise_count(before, 0);
    put_group(balise, place < count ? place + 1 : place, count);
}

/* The start of some record that a link may name. */
static uint32_t some_target(source *from, const stored *file,
                            const ind_layout *layout)
{
    ind_object record;
    do
        record = some_record(from, file, layout);
    while (record.kind == IND_SIDING
           || (record.kind == IND_BALISE
               && ind_balise_place(file->bytes, record.start) > 1));
    return record.start;
}

/* One link or both become others than those of the balise before: none, the
 * other one, number 1 of the group, some record that a link may name, or those
 * of the first balise of all. */
static void poke_member_link(source *from, stored *file,
                             const ind_layout *layout, const member *of)
{
    uint8_t *balise = file->bytes + of->at;
    const uint8_t *other = file->bytes + layout->from[IND_BALISE];
    uint32_t which = once_in(from, 2) ? IND_BALISE_PREVIOUS : IND_BALISE_NEXT;
    uint32_t sibling = which ^ IND_BALISE_PREVIOUS ^ IND_BALISE_NEXT;
    switch (draw(from, 8)) {
    case 0:
    case 1: put_two(balise, which, 0); break;
    case 2: put_two(balise, which, ind_two(balise, sibling)); break;
    case 3: put_two(balise, which, of->first); break;
    case 4: swap_links(file, (ind_object){ IND_BALISE, of->at }); break;
    case 5:
        put_four(balise, IND_BALISE_PREVIOUS,
                 ind_four(other, IND_BALISE_PREVIOUS));
        break;
    default: put_two(balise, which, some_target(from, file, layout)); break;
    }
}

/* Without one balise of several: every offset behind it moves up, so that
 * the layout stays right. */
static void remove_balise(stored *file, const ind_layout *layout, uint32_t at)
{
    uint8_t *bytes = file->bytes;
    uint32_t size = bytes[at + IND_BALISE_SIZE_BYTE];
    ind_object record = { IND_NO_KIND, layout->header };
    for (uint32_t i = 1; i <= IND_GROUPS; i++) {
        uint32_t group = layout->header - IND_OFFSET_SIZE * i;
        uint32_t offset = ind_two(bytes, group);
        put_two(bytes, group, offset > at ? offset - size : offset);
    }
    while (record.start < layout->end) {
        record.kind = ind_kind_at(layout, record.start);
        for (uint32_t i = 0; i < ind_links(record.kind); i++) {
            uint32_t link = ind_two(bytes, ind_link_place(record, i));
            put_two(bytes, ind_link_place(record, i),
                    link > at ? link - size : link);
        }
        record.start += ind_record_size(bytes, record);
    }
    remove_bytes(file, at, size);
}

/* A group of balises: out of sequence, at the head of all balises, joined to
 * another, with other links, without its number 1 or another of its balises.
 * Any record, where there are no two balises. */
static void poke_group(source *from, stored *file, const ind_layout *layout)
{
    uint8_t *bytes = file->bytes;
    member of = some_member(from, file, layout);
    if (of.at == 0) {
        poke_record(from, file, layout);
        return;
    }
    switch (draw(from, 10)) {
    case 0:
    case 1:
    case 2:
    case 3: poke_sequence(from, bytes + of.before, bytes + of.at); break;
    case 4: poke_head(from, bytes + layout->from[IND_BALISE]); break;
    case 5: join_group(bytes + of.before, bytes + of.at); break;
    case 6:
        remove_balise(file, layout, of.first != 0 ? of.first : of.before);
        break;
    case 7: remove_balise(file, layout, of.before); break;
    default: poke_member_link(from, file, layout, &of); break;
    }
}

void poke_application(source *from, stored *file)
{
    ind_layout layout;
    ind_application_layout(file->bytes, file->length - IND_CHECKSUM_SIZE,
                           &layout);
    switch (draw(from, 23)) {
    case 0: damage_opening(from, file); break;
    case 1:
        poke_station_name(from, file->bytes + IND_STATION_NAME_PLACE);
        break;
    case 2:
    case 3: poke_header_track(from, file, &layout); break;
    case 4: poke_group_byte(from, file, &layout); break;
    case 5:
    case 6:
    case 7: poke_group(from, file, &layout); break;
    case 8:
    case 9:
    case 10: poke_some_name(from, file, &layout); break;
    default: poke_record(from, file, &layout); break;
    }
}

static void break_count(source *from, stored *file, const ind_layout *layout)
{
    uint32_t fitting = (layout->end - IND_START_ENTRIES_PLACE)
        / IND_ENTRY_SIZE;
    uint32_t spare = (layout->end - layout->to[IND_END_BOUNDARY])
        / (IND_ENTRY_SIZE + IND_BOUNDARY_SIZE);
    uint32_t place = IND_START_COUNT_PLACE;
    if (once_in(from, 2))
        place = IND_START_ENTRIES_PLACE + IND_ENTRY_SIZE * layout->starts;
    {
        uint32_t old = file->bytes[place];
        const uint32_t values[] = { 0,
                                    old - 1,
                                    old + 1,
                                    255,
                                    fitting - 1,
                                    fitting,
                                    fitting + 1,
                                    old + spare,
                                    old + spare + 1 };
        file->bytes[place] = (uint8_t)ONE_OF(from, values);
    }
}

static void break_boundary_offset(source *from, stored *file,
                                  const ind_layout *layout)
{
    uint32_t which = draw(from, layout->starts + layout->ends);
    uint32_t place = ind_entry_place(layout, which) + IND_ENTRY_OFFSET;
    uint32_t old = ind_two(file->bytes, place);
    put_two(file->bytes, place, edge_offset(from, old, layout->end));
}

static void break_group(source *from, stored *file, const ind_layout *layout)
{
    uint32_t groups = layout->header - IND_GROUPS_SIZE;
    uint32_t place = groups + IND_OFFSET_SIZE * draw(from, IND_GROUPS);
    uint32_t other = groups + IND_OFFSET_SIZE * draw(from, IND_GROUPS);
    uint32_t old = ind_two(file->bytes, place);
    uint32_t other_old = ind_two(file->bytes, other);
    if (once_in(from, 3)) {
        put_two(file->bytes, place, other_old);
        if (once_in(from, 2))
            put_two(file->bytes, other, old);
    } else {
        put_two(file->bytes, place, edge_offset(from, old, layout->end));
    }
}

/* A balise's size byte; without balises, a group offset. */
static void break_balise(source *from, stored *file, const ind_layout *layout)
{
    uint32_t balise = layout->from[IND_BALISE];
    uint32_t to = layout->to[IND_BALISE];
    uint32_t skip = draw(from, once_in(from, 3) ? 200 : 3);
    if (balise == to) {
        break_group(from, file, layout);
        return;
    }
    while (skip-- > 0
           && balise + file->bytes[balise + IND_BALISE_SIZE_BYTE] < to)
        balise += file->bytes[balise + IND_BALISE_SIZE_BYTE];
    {
        uint32_t old = file->bytes[balise + IND_BALISE_SIZE_BYTE];
        uint32_t left = to - balise;
        const uint32_t values[] = { 0,       15,      16,   17,       18, 120,
                                    121,     255,     left, left + 1, 104,
                                    old - 1, old + 1, old - 2, left - 15 };
        file->bytes[balise + IND_BALISE_SIZE_BYTE] =
            (uint8_t)ONE_OF(from, values);
    }
}

/* Cuts the file right behind, or a byte beside, a part of it. */
static void break_length(source *from, stored *file, const ind_layout *layout)
{
    const uint32_t parts[] = {
        IND_START_ENTRIES_PLACE + IND_ENTRY_SIZE * layout->starts,
        layout->header, layout->to[IND_END_BOUNDARY],
        some_record(from, file, layout).start
    };
    uint32_t end = ONE_OF(from, parts) + draw(from, 3) - 1;
    if (once_in(from, 2))
        change_length(from, file);
    else if (end + IND_CHECKSUM_SIZE < file->length)
        file->length = end + IND_CHECKSUM_SIZE;
}

/* No group is named although there is one, or the reverse. */
static void forget_groups(stored *file, const ind_layout *layout)
{
    memset(file->bytes + layout->header - IND_GROUPS_SIZE, 0,
           IND_GROUPS_SIZE);
}

/* A record less or once more. */
static void break_record(source *from, stored *file, const ind_layout *layout)
{
    ind_object record = some_record(from, file, layout);
    uint32_t size = ind_record_size(file->bytes, record);
    if (once_in(from, 2))
        remove_bytes(file, record.start, size);
    else
        insert_bytes(from, file, record.start, size);
}

void break_application(source *from, stored *file)
{
    ind_layout layout;
    ind_application_layout(file->bytes, file->length - IND_CHECKSUM_SIZE,
                           &layout);
    switch (draw(from, 9)) {
    case 0: break_count(from, file, &layout); break;
    case 1: break_boundary_offset(from, file, &layout); break;
    case 2:
    case 3: break_group(from, file, &layout); break;
    case 4:
    case 5: break_balise(from, file, &layout); break;
    case 6: break_length(from, file, &layout); break;
    case 7: forget_groups(file, &layout); break;
    default: break_record(from, file, &layout); break;
    }
}
