/* A yard's bytes: the header, then the records without gaps. */
#include "make.h"

#include <stdlib.h>

#include "core/core.h"

/* Objects in stored order. The others of a balise group stand directly after
 * its number 1. */
typedef struct {
    uint32_t kind;
    uint32_t order;
    uint32_t first;
    uint32_t at;
} rank;

static rank rank_of(const yard *made, uint32_t at)
{
    uint32_t first = made->objects[at].first;
    if (first == NO_OBJECT)
        first = at;
    return (rank){ made->objects[at].kind, made->objects[first].order, first,
                   at };
}

static int by_rank(const void *left, const void *right)
{
    const rank *one = left, *other = right;
    if (one->kind != other->kind)
        return one->kind < other->kind ? -1 : 1;
    if (one->order != other->order)
        return one->order < other->order ? -1 : 1;
    if (one->first != other->first)
        return one->first < other->first ? -1 : 1;
    return one->at < other->at ? -1 : 1;
}

static uint32_t any_position(source *from)
{
    switch (draw(from, 4)) {
    case 0: return 0;
    case 1: return IND_LARGEST_POSITION;
    default: return draw(from, IND_LARGEST_POSITION);
    }
}

/* A track and a position on it, from the geography where there is one. */
static void put_stand(source *from, const stored *geography, uint8_t *track,
                      uint8_t *position)
{
    uint32_t end, entry;
    if (geography == NULL) {
        *track = (uint8_t)draw_between(from, 1, IND_LARGEST_TRACK);
        put_four(position, 0, any_position(from));
        return;
    }
    entry = ind_track_place(draw(from, ind_tracks(geography->bytes)));
    end = ind_four(geography->bytes, entry + IND_TRACK_END_POSITION);
    *track = geography->bytes[entry + IND_TRACK_NUMBER];
    put_four(position, 0,
             once_in(from, 3) ? end : (uint32_t)draw_between(from, 0, end));
}

/* A name's byte that is no space. */
static uint8_t some_letter(source *from)
{
    if (once_in(from, 8))
        return once_in(from, 2) ? IND_SPACE + 1 : IND_NAME_LARGEST;
    return (uint8_t)draw_between(from, IND_SPACE + 1, IND_NAME_LARGEST);
}

/* A name of one to eight bytes, one in three with spaces inside. */
static void put_name(source *from, uint8_t *name)
{
    uint32_t used = once_in(from, 4) ? IND_NAME_SIZE
                                     : 1 + draw(from, IND_NAME_SIZE);
    int spaced = once_in(from, 3);
    for (uint32_t i = 0; i < IND_NAME_SIZE; i++) {
        int inside = i > 0 && i + 1 < used;
        name[i] = i < used ? some_letter(from) : 0;
        if (spaced && inside && once_in(from, 2))
            name[i] = IND_SPACE;
    }
}

/* A name that may be empty, and is one time in three. */
static void put_optional_name(source *from, uint8_t *name)
{
    if (once_in(from, 3))
        for (uint32_t i = 0; i < IND_NAME_SIZE; i++)
            name[i] = 0;
    else
        put_name(from, name);
}

/* One code; the second byte is never the gap. */
static void put_code(source *from, uint8_t *code)
{
    static const uint8_t seconds[] = { IND_CODE_SECOND_LEAST,
                                       IND_CODE_SECOND_GAP - 1,
                                       IND_CODE_SECOND_GAP + 1,
                                       IND_CODE_SECOND_LARGEST };
    code[0] = (uint8_t)draw_between(from, IND_CODE_FIRST_LEAST,
                                    IND_CODE_FIRST_LARGEST);
    code[1] = seconds[draw(from, sizeof seconds)];
    if (once_in(from, 2))
        code[1] = (uint8_t)draw_between(from, IND_CODE_SECOND_GAP + 1,
                                        IND_CODE_SECOND_LARGEST);
}

static void put_station_name(source *from, uint8_t *name)
{
    enum { CODES = IND_STATION_NAME_SIZE / IND_CODE_SIZE };
    uint32_t used = once_in(from, 4) ? CODES : 1 + draw(from, CODES);
    for (uint32_t i = 0; i < CODES; i++) {
        name[2 * i] = 0;
        name[2 * i + 1] = 0;
        if (i < used)
            put_code(from, name + 2 * i);
    }
}

static uint32_t boundary_type(source *from, ind_kind kind)
{
    if (kind == IND_START_BOUNDARY)
        return once_in(from, 2) ? IND_UP_START : IND_DOWN_START;
    return once_in(from, 2) ? IND_UP_END : IND_DOWN_END;
}

static void put_boundary(source *from, const stored *geography, ind_kind kind,
                         uint8_t *record)
{
    static const uint8_t neighbours[] = { IND_UP_START, IND_DOWN_START,
                                          IND_UP_END, IND_DOWN_END,
                                          IND_NEIGHBOUR_UNKNOWN };
    record[IND_TYPE_PLACE] = (uint8_t)boundary_type(from, kind);
    put_two(record, IND_BOUNDARY_NEIGHBOUR_STATION,
            once_in(from, 3) ? 0 : draw(from, 65536));
    record[IND_BOUNDARY_NEIGHBOUR_TYPE] =
        neighbours[draw(from, sizeof neighbours)];
    record[IND_BOUNDARY_NEIGHBOUR_TRACK] =
        once_in(from, 3) ? 0 : (uint8_t)draw(from, IND_LARGEST_TRACK + 1);
    put_stand(from, geography, record + IND_BOUNDARY_TRACK,
              record + IND_BOUNDARY_POSITION);
}

static void put_turnout(source *from, const stored *geography,
                        uint8_t *record)
{
    record[IND_TYPE_PLACE] = IND_TURNOUT_TYPE;
    record[IND_TURNOUT_NUMBER] =
        (uint8_t)draw_between(from, 1, IND_LARGEST_TRACK);
    record[IND_TURNOUT_DIRECTION] = (uint8_t)draw(from, 2);
    put_stand(from, geography, record + IND_TURNOUT_FRONT_TRACK,
              record + IND_TURNOUT_TIP_POSITION);
    put_stand(from, geography, record + IND_TURNOUT_NORMAL_TRACK,
              record + IND_TURNOUT_NORMAL_POSITION);
    put_stand(from, geography, record + IND_TURNOUT_REVERSE_TRACK,
              record + IND_TURNOUT_REVERSE_POSITION);
}

static void put_balise(source *from, const stored *geography,
                       const object *balise, uint8_t *record)
{
    static const uint8_t attributes[] = { IND_ATTRIBUTE_VIRTUAL_OPPOSITE,
                                          IND_ATTRIBUTE_PHYSICAL_OPPOSITE,
                                          IND_ATTRIBUTE_VIRTUAL_SAME,
                                          IND_ATTRIBUTE_PHYSICAL_SAME };
    record[IND_TYPE_PLACE] = IND_BALISE_TYPE;
    put_three(record, IND_BALISE_NUMBER,
              once_in(from, 8) ? IND_NO_BALISE - 1 : draw(from, 0xFFFFFF));
    record[IND_BALISE_SIZE_BYTE] = (uint8_t)balise->size;
    record[IND_BALISE_ATTRIBUTE] = attributes[draw(from, sizeof attributes)];
    put_stand(from, geography, record + IND_BALISE_TRACK,
              record + IND_BALISE_POSITION);
    record[IND_BALISE_GROUP] = (uint8_t)balise->group_byte;
    for (uint32_t i = IND_BALISE_MESSAGE; i < balise->size; i++)
        record[i] = (uint8_t)draw_bits(from);
    if (balise->size > IND_BALISE_PLAIN_SIZE)
        record[balise->size - 1] = IND_MESSAGE_LAST;
}

static void put_signal(source *from, const stored *geography, uint8_t *record)
{
    uint32_t direction = draw(from, IND_SIGNAL_LARGEST_DIRECTION + 1);
    record[IND_TYPE_PLACE] = IND_SIGNAL_TYPE;
    put_name(from, record + IND_SIGNAL_NAME);
    put_stand(from, geography, record + IND_SIGNAL_TRACK,
              record + IND_SIGNAL_POSITION);
    record[IND_SIGNAL_BYTE] =
        (uint8_t)(direction << IND_SIGNAL_DIRECTION_SHIFT
                  | (uint32_t)draw_between(from, IND_SIGNAL_LEAST_TYPE,
                                           IND_SIGNAL_LARGEST_TYPE));
}

static void put_joint(source *from, const stored *geography, uint8_t *record)
{
    record[IND_TYPE_PLACE] = IND_JOINT_TYPE;
    put_optional_name(from, record + IND_JOINT_NAME);
    put_stand(from, geography, record + IND_JOINT_TRACK,
              record + IND_JOINT_POSITION);
}

static uint32_t exit_balise(source *from)
{
    return once_in(from, 3) ? IND_NO_BALISE : draw(from, 0x1000000);
}

static void put_siding(source *from, const stored *geography, uint8_t *record)
{
    uint8_t unused[4];
    record[IND_TYPE_PLACE] = IND_SIDING_TYPE;
    put_name(from, record + IND_SIDING_NAME);
    put_stand(from, geography, record + IND_SIDING_TRACK, unused);
    put_three(record, IND_SIDING_UP_BALISE, exit_balise(from));
    put_optional_name(from, record + IND_SIDING_UP_SIGNAL);
    put_three(record, IND_SIDING_DOWN_BALISE, exit_balise(from));
    put_optional_name(from, record + IND_SIDING_DOWN_SIGNAL);
}

static void put_record(const object *made, const stored *geography,
                       uint8_t *record)
{
    source from = source_from(made->seed);
    switch (made->kind) {
    case IND_TURNOUT: put_turnout(&from, geography, record); break;
    case IND_BALISE: put_balise(&from, geography, made, record); break;
    case IND_SIGNAL: put_signal(&from, geography, record); break;
    case IND_JOINT: put_joint(&from, geography, record); break;
    case IND_SIDING: put_siding(&from, geography, record); break;
    default: put_boundary(&from, geography, made->kind, record); break;
    }
}

/* Each link as the start of the object that it names. All balises of a group
 * have the links of number 1. */
static void put_links(const yard *made, const object *of, uint8_t *bytes)
{
    ind_object record = { of->kind, of->start };
    const uint32_t *links = of->first == NO_OBJECT
        ? of->links
        : made->objects[of->first].links;
    for (uint32_t i = 0; i < ind_links(of->kind); i++) {
        uint32_t other = links[i];
        put_two(bytes, ind_link_place(record, i),
                other == NO_OBJECT ? 0 : made->objects[other].start);
    }
}

/* Starts in stored order, from the header's end on; gives back End. */
static uint32_t place_objects(yard *made, const rank *ranks, uint32_t header)
{
    uint32_t place = header;
    for (uint32_t i = 0; i < made->count; i++) {
        made->objects[ranks[i].at].start = place;
        place += made->objects[ranks[i].at].size;
    }
    return place;
}

/* The header's boundary entries and group offsets, in stored order. */
static void put_offsets(const yard *made, const rank *ranks, uint32_t header,
                        uint8_t *bytes)
{
    uint32_t groups = header - IND_GROUPS_SIZE;
    uint32_t starts = count_kind(made, IND_START_BOUNDARY);
    ind_layout layout;
    layout.starts = starts;
    bytes[IND_START_COUNT_PLACE] = (uint8_t)starts;
    bytes[IND_START_ENTRIES_PLACE + IND_ENTRY_SIZE * starts] =
        (uint8_t)count_kind(made, IND_END_BOUNDARY);
    for (uint32_t i = 0; i < IND_GROUPS; i++)
        put_two(bytes, groups + IND_OFFSET_SIZE * i, 0);
    for (uint32_t i = made->count; i > 0; i--) {
        const object *of = &made->objects[ranks[i - 1].at];
        if (of->kind >= IND_TURNOUT) {
            put_two(bytes,
                    groups + IND_OFFSET_SIZE * (of->kind - IND_TURNOUT),
                    of->start);
        } else {
            uint32_t entry = ind_entry_place(&layout, i - 1);
            bytes[entry + IND_ENTRY_TRACK] =
                bytes[of->start + IND_BOUNDARY_TRACK];
            put_two(bytes, entry + IND_ENTRY_OFFSET, of->start);
        }
    }
}

/* The header up to the station name. */
static void put_station(const yard *made, uint8_t *bytes)
{
    source from = source_from(made->seed);
    put_opening(bytes, IND_X2_TYPE, made->data_version, made->station);
    put_station_name(&from, bytes + IND_STATION_NAME_PLACE);
}

void lay_out(yard *made, const stored *geography, stored *file)
{
    static rank ranks[LARGEST_YARD];
    uint32_t boundaries = count_kind(made, IND_START_BOUNDARY)
        + count_kind(made, IND_END_BOUNDARY);
    uint32_t header = IND_START_ENTRIES_PLACE + IND_COUNT_SIZE
        + IND_ENTRY_SIZE * boundaries + IND_GROUPS_SIZE;
    for (uint32_t i = 0; i < made->count; i++)
        ranks[i] = rank_of(made, i + 1);
    qsort(ranks, made->count, sizeof *ranks, by_rank);
    file->length = place_objects(made, ranks, header) + IND_CHECKSUM_SIZE;
    put_station(made, file->bytes);
    for (uint32_t i = 1; i <= made->count; i++) {
        const object *of = &made->objects[i];
        put_record(of, geography, file->bytes + of->start);
        put_links(made, of, file->bytes);
    }
    put_offsets(made, ranks, header, file->bytes);
    seal(file);
}
