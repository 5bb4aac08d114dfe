/* A plain reader: packed structs laid over the bytes, numbers as a
 * little-endian processor has them, every rule where it is handiest. */
#include "plain.h"

#include <string.h>

#include "sums.h"

enum {
    LARGEST_FILE = 65535,
    CHECKSUM_SIZE = 4,
    TRACK_NUMBERS = 256,
    NAME_SIZE = 8,
    STATION_NAME_SIZE = 16,
    LATITUDE_LIMIT = 324000000,
    LONGITUDE_LIMIT = 648000000,
    HEADING_LIMIT = 31416,
    LARGEST_POSITION = 2147483647
};

/* ---- records */

#pragma pack(push, 1)

typedef struct {
    uint8_t type;
    uint16_t structure;
    uint16_t data;
    uint16_t station;
} opening;

typedef struct {
    opening start;
    uint8_t tracks;
} x1_header;

typedef struct {
    uint8_t number;
    uint8_t property;
    uint32_t start_position;
    int32_t start_latitude;
    int32_t start_longitude;
    uint32_t end_position;
    int32_t end_latitude;
    int32_t end_longitude;
    uint16_t first;
    uint16_t last;
} track;

typedef struct {
    uint32_t position;
    uint8_t latitude[3];
    uint8_t longitude[3];
    int16_t heading;
    uint8_t near;
} point;

/* In structure version 2. */
typedef struct {
    point like;
    int16_t height;
} high_point;

typedef struct {
    opening start;
    uint8_t name[STATION_NAME_SIZE];
    uint8_t starts;
} x2_header;

typedef struct {
    uint8_t track;
    uint16_t offset;
} entry;

typedef struct {
    uint8_t type;
    uint16_t link;
    uint16_t neighbour_station;
    uint8_t neighbour_type;
    uint8_t neighbour_track;
    uint32_t position;
    uint8_t track;
} boundary;

typedef struct {
    uint8_t type;
    uint8_t number;
    uint8_t direction;
    uint32_t position[3];
    uint16_t link[3];
    uint8_t track[3];
} turnout;

typedef struct {
    uint8_t type;
    uint16_t link[2];
    uint8_t number[3];
    uint8_t size;
    uint8_t attribute;
    uint32_t position;
    uint8_t track;
    uint8_t group;
} balise;

typedef struct {
    uint8_t type;
    uint16_t link[2];
    uint8_t name[NAME_SIZE];
    uint32_t position;
    uint8_t track;
} joint;

typedef struct {
    joint like;
    uint8_t signal;
} signal;

typedef struct {
    uint8_t type;
    uint8_t name[NAME_SIZE];
    uint8_t track;
    uint8_t up_balise[3];
    uint8_t up_signal[NAME_SIZE];
    uint8_t down_balise[3];
    uint8_t down_signal[NAME_SIZE];
} siding;

#pragma pack(pop)

typedef char records_have_their_sizes
    [sizeof(opening) == 7 && sizeof(x1_header) == 8 && sizeof(track) == 30
     && sizeof(point) == 13 && sizeof(high_point) == 15
     && sizeof(x2_header) == 24 && sizeof(entry) == 3
     && sizeof(boundary) == 12 && sizeof(turnout) == 24
     && sizeof(balise) == 16 && sizeof(signal) == 19 && sizeof(joint) == 18
     && sizeof(siding) == 32 ? 1 : -1];

static int sealed(const uint8_t *file, size_t length)
{
    uint32_t stored;
    memcpy(&stored, file + length - CHECKSUM_SIZE, sizeof stored);
    return sum_by_eight(file, length - CHECKSUM_SIZE) == stored;
}

/* Structure versions are from 1 up to the newest. */
static int opened(const uint8_t *file, uint8_t type, uint16_t newest)
{
    const opening *start = (const void *)file;
    return start->type == type && start->structure >= 1
        && start->structure <= newest && start->data != 0
        && start->station != 0;
}

/* ---- X.1 */

static int32_t increment(const uint8_t bytes[3])
{
    int32_t low = bytes[0] | bytes[1] << 8;
    return low + (int8_t)bytes[2] * 65536;
}

static int within(int32_t value, int32_t limit)
{
    return value >= -limit && value <= limit;
}

static int track_right(const track *of)
{
    return of->number != 0 && of->property >= 1 && of->property <= 5
        && of->start_position == 0 && of->end_position <= LARGEST_POSITION
        && within(of->start_latitude, LATITUDE_LIMIT)
        && within(of->start_longitude, LONGITUDE_LIMIT)
        && within(of->end_latitude, LATITUDE_LIMIT)
        && within(of->end_longitude, LONGITUDE_LIMIT);
}

static int point_right(const track *of, const point *at)
{
    return at->position <= LARGEST_POSITION
        && within(at->heading, HEADING_LIMIT) && at->near <= 1
        && within(of->start_latitude + increment(at->latitude),
                  LATITUDE_LIMIT)
        && within(of->start_longitude + increment(at->longitude),
                  LONGITUDE_LIMIT);
}

/* The next point, where each has this size. */
static const point *after(const point *at, size_t size)
{
    return (const void *)((const uint8_t *)at + size);
}

static inline int points_right(const track *of, const point *first,
                               const point *last, size_t size)
{
    const point *before = first;
    if (first->position != 0 || increment(first->latitude) != 0
        || increment(first->longitude) != 0
        || first->near != after(first, size)->near || !point_right(of, first))
        return 0;
    for (const point *at = after(first, size); at <= last;
         at = after(at, size)) {
        if (at->position <= before->position || !point_right(of, at))
            return 0;
        before = at;
    }
    return last->position == of->end_position
        && of->start_latitude + increment(last->latitude) == of->end_latitude
        && of->start_longitude + increment(last->longitude)
            == of->end_longitude;
}

static const track *tracks_of(const uint8_t *file)
{
    return (const void *)(file + sizeof(x1_header));
}

static const point *point_at(const uint8_t *file, uint32_t place)
{
    return (const void *)(file + place);
}

static size_t point_size(const uint8_t *file)
{
    const opening *start = (const void *)file;
    return start->structure == 1 ? sizeof(point) : sizeof(high_point);
}

/* All tracks, with points of this size. */
static inline int tracks_right(const uint8_t *file, size_t end, size_t size)
{
    const x1_header *header = (const void *)file;
    const track *tracks = tracks_of(file);
    size_t due = sizeof *header + header->tracks * sizeof *tracks;
    if (header->tracks == 0 || due > end)
        return 0;
    for (int i = 0; i < header->tracks; i++) {
        const track *of = &tracks[i];
        if (of->first != due || of->last <= of->first
            || (size_t)(of->last - of->first) % size != 0
            || of->last + size > end || !track_right(of)
            || (i > 0 && of->number <= of[-1].number)
            || !points_right(of, point_at(file, of->first),
                             point_at(file, of->last), size))
            return 0;
        due = of->last + size;
    }
    return due == end;
}

/* Too short for version 2 is too short for its two points. */
int plain_x1(const uint8_t *file, size_t length)
{
    size_t end = length - CHECKSUM_SIZE;
    if (length < 68 || length > LARGEST_FILE || !sealed(file, length)
        || !opened(file, 1, 2))
        return 0;
    return point_size(file) == sizeof(point)
        ? tracks_right(file, end, sizeof(point))
        : tracks_right(file, end, sizeof(high_point));
}

/* From low to high at a step of a width, to the nearest whole, a half up. */
static int32_t between(int64_t low, int64_t high, int64_t step, int64_t width)
{
    int64_t above = 2 * (high - low) * step + width, below = 2 * width;
    int64_t cut = above / below;
    return (int32_t)(low + (above % below < 0 ? cut - 1 : cut));
}

int plain_coordinate(const uint8_t *file, size_t length, uint32_t number,
                     uint32_t position, int32_t *latitude, int32_t *longitude)
{
    const x1_header *header = (const void *)file;
    const track *of = tracks_of(file);
    const point *at, *before;
    int64_t step, width;
    int left;
    if (!plain_x1(file, length))
        return 0;
    for (left = header->tracks; left > 0 && of->number != number; left--)
        of++;
    if (left == 0 || position > of->end_position)
        return 0;
    before = point_at(file, of->first);
    at = after(before, point_size(file));
    while (at->position < position) {
        before = at;
        at = after(at, point_size(file));
    }
    step = position - before->position;
    width = at->position - before->position;
    *latitude = of->start_latitude
        + between(increment(before->latitude), increment(at->latitude), step,
                  width);
    *longitude = of->start_longitude
        + between(increment(before->longitude), increment(at->longitude),
                  step, width);
    return 1;
}

/* ---- X.2 */

enum {
    TURNOUTS,
    BALISES,
    SIGNALS,
    JOINTS,
    SIDINGS,
    GROUPS
};

/* Where the records stand, the boundaries and each group. */
typedef struct {
    uint32_t boundaries;
    uint32_t boundaries_end;
    uint32_t from[GROUPS];
    uint32_t to[GROUPS];
} layout;

/* What stands at a place, if a record that a link may name starts there. */
enum {
    NOTHING,
    A_BOUNDARY,
    A_TURNOUT,
    A_PLAIN_ONE
};

typedef uint8_t starts_map[LARGEST_FILE + 1];

/* How many bytes a name has; -1 where the field holds none. */
static int name_bytes(const uint8_t name[NAME_SIZE])
{
    int used = 0, i;
    while (used < NAME_SIZE && name[used] >= 0x20 && name[used] <= 0x7E)
        used++;
    for (i = used; i < NAME_SIZE; i++)
        if (name[i] != 0)
            return -1;
    if (used > 0 && (name[0] == 0x20 || name[used - 1] == 0x20))
        return -1;
    return used;
}

static int name_right(const uint8_t name[NAME_SIZE])
{
    return name_bytes(name) > 0;
}

static int optional_name_right(const uint8_t name[NAME_SIZE])
{
    return name_bytes(name) >= 0;
}

static int station_name_right(const uint8_t name[STATION_NAME_SIZE])
{
    int i = 0;
    while (i < STATION_NAME_SIZE && name[i] >= 0x81 && name[i] <= 0xFE
           && name[i + 1] >= 0x40 && name[i + 1] <= 0xFE
           && name[i + 1] != 0x7F)
        i += 2;
    if (i == 0)
        return 0;
    while (i < STATION_NAME_SIZE && name[i] == 0)
        i++;
    return i == STATION_NAME_SIZE;
}

static int boundary_right(const boundary *of, int start)
{
    uint8_t type = start ? of->type : (uint8_t)~of->type;
    uint8_t other = of->neighbour_type;
    return type <= 1 && (other <= 1 || other >= 0xFE || other == 0x55)
        && of->position <= LARGEST_POSITION && of->track != 0;
}

/* The counts, the entries and the boundaries. */
static int boundaries_right(const uint8_t *file, uint32_t end, layout *found,
                            starts_map starts_at)
{
    const x2_header *header = (const void *)file;
    const entry *entries = (const void *)(file + sizeof *header);
    const boundary *records;
    uint32_t starts = header->starts, at = sizeof *header, ends;
    at += starts * (uint32_t)sizeof *entries;
    if (starts == 0 || at >= end)
        return 0;
    ends = file[at];
    at += 1 + ends * (uint32_t)sizeof *entries + GROUPS * 2;
    if (ends == 0 || at + (starts + ends) * sizeof *records > end)
        return 0;
    found->boundaries = at;
    records = (const void *)(file + at);
    for (uint32_t i = 0; i < starts + ends; i++) {
        if (i == starts)
            entries = (const void *)((const uint8_t *)entries + 1);
        if (entries[i].offset != at || !boundary_right(records, i < starts)
            || entries[i].track != records->track)
            return 0;
        starts_at[at] = A_BOUNDARY;
        at += (uint32_t)sizeof *records;
        records++;
    }
    found->boundaries_end = at;
    return 1;
}

static int turnouts_right(const uint8_t *file, uint32_t at, uint32_t to,
                          starts_map starts_at)
{
    for (; at < to; at += (uint32_t)sizeof(turnout)) {
        const turnout *of = (const void *)(file + at);
        if (of->type != 0x06 || of->number == 0 || of->direction > 1
            || of->position[0] > LARGEST_POSITION
            || of->position[1] > LARGEST_POSITION
            || of->position[2] > LARGEST_POSITION || of->track[0] == 0
            || of->track[1] == 0 || of->track[2] == 0)
            return 0;
        starts_at[at] = A_TURNOUT;
    }
    return at == to;
}

/* A balise of place above 1 comes directly after one of its count and a lower
 * place. The middle bits of both group bytes are 0, so that the bytes can be
 * compared as they are. */
static int follows(const balise *before, const balise *of)
{
    return before != NULL && of->group > before->group
        && of->group >> 5 == before->group >> 5;
}

static int balises_right(const uint8_t *file, uint32_t at, uint32_t to,
                         starts_map starts_at)
{
    const balise *before = NULL;
    while (at < to) {
        const balise *of = (const void *)(file + at);
        if (to - at < sizeof *of || of->size > to - at || of->size < 16
            || of->size == 17 || of->size > 120 || of->type != 0x33
            || (of->number[0] & of->number[1] & of->number[2]) == 0xFF
            || ((of->attribute & ~1) != 0x40 && (of->attribute & ~1) != 0x80)
            || of->position > LARGEST_POSITION || of->track == 0
            || (of->group & 0x18) != 0 || (of->group & 7) > of->group >> 5
            || (of->size > 16 && file[at + of->size - 1] != 0xFF))
            return 0;
        if ((of->group & 7) == 0)
            starts_at[at] = A_PLAIN_ONE;
        else if (!follows(before, of))
            return 0;
        before = of;
        at += of->size;
    }
    return at == to;
}

/* A joint, or what a signal has in common with one: all but the name. */
static int post_right(const joint *of, uint8_t type)
{
    return of->type == type && of->position <= LARGEST_POSITION
        && of->track != 0;
}

static int signals_right(const uint8_t *file, uint32_t at, uint32_t to,
                         starts_map starts_at)
{
    for (; at < to; at += (uint32_t)sizeof(signal)) {
        const signal *of = (const void *)(file + at);
        if (!post_right(&of->like, 0xC3) || !name_right(of->like.name)
            || of->signal >= 0xC0 || (of->signal & 0x30) != 0
            || (of->signal & 0x0F) < 1 || (of->signal & 0x0F) > 5)
            return 0;
        starts_at[at] = A_PLAIN_ONE;
    }
    return at == to;
}

static int joints_right(const uint8_t *file, uint32_t at, uint32_t to,
                        starts_map starts_at)
{
    for (; at < to; at += (uint32_t)sizeof(joint)) {
        const joint *of = (const void *)(file + at);
        if (!post_right(of, 0xC6) || !optional_name_right(of->name))
            return 0;
        starts_at[at] = A_PLAIN_ONE;
    }
    return at == to;
}

static int sidings_right(const uint8_t *file, uint32_t at, uint32_t to)
{
    for (; at < to; at += (uint32_t)sizeof(siding)) {
        const siding *of = (const void *)(file + at);
        if (of->type != 0xCC || !name_right(of->name) || of->track == 0
            || !optional_name_right(of->up_signal)
            || !optional_name_right(of->down_signal))
            return 0;
    }
    return at == to;
}

/* The records of a group that ends where a record does. */
static int group_right(const uint8_t *file, int group, uint32_t from,
                       uint32_t to, starts_map starts_at)
{
    static const uint8_t sizes[GROUPS] = {
        sizeof(turnout), 1, sizeof(signal), sizeof(joint), sizeof(siding)
    };
    if ((to - from) % sizes[group] != 0)
        return 0;
    switch (group) {
    case TURNOUTS: return turnouts_right(file, from, to, starts_at);
    case BALISES: return balises_right(file, from, to, starts_at);
    case SIGNALS: return signals_right(file, from, to, starts_at);
    case JOINTS: return joints_right(file, from, to, starts_at);
    default: return sidings_right(file, from, to);
    }
}

static int groups_right(const uint8_t *file, uint32_t end, layout *found,
                        starts_map starts_at)
{
    const uint8_t *offsets = file + found->boundaries - GROUPS * 2;
    uint32_t at = found->boundaries_end;
    uint16_t given[GROUPS];
    memcpy(given, offsets, sizeof given);
    for (int i = 0; i < GROUPS; i++) {
        int next = i + 1;
        found->from[i] = found->to[i] = at;
        if (given[i] == 0)
            continue;
        while (next < GROUPS && given[next] == 0)
            next++;
        found->to[i] = next < GROUPS ? given[next] : end;
        if (given[i] != at || found->to[i] <= at || found->to[i] > end
            || !group_right(file, i, at, found->to[i], starts_at))
            return 0;
        at = found->to[i];
    }
    return at == end;
}

/* What a link names may be named, is not the record itself and names it. */
static int returned(const uint8_t *file, const starts_map starts_at,
                    uint32_t end, uint32_t link, uint32_t record)
{
    const void *target = file + link;
    if (link >= end || link == record)
        return 0;
    switch (starts_at[link]) {
    case A_BOUNDARY: return ((const boundary *)target)->link == record;
    case A_TURNOUT:
        return ((const turnout *)target)->link[0] == record
            || ((const turnout *)target)->link[1] == record
            || ((const turnout *)target)->link[2] == record;
    case A_PLAIN_ONE:
        return ((const balise *)target)->link[0] == record
            || ((const balise *)target)->link[1] == record;
    default: return 0;
    }
}

static int boundary_links_right(const uint8_t *file, const layout *found,
                                const starts_map starts_at, uint32_t end)
{
    for (uint32_t at = found->boundaries; at < found->boundaries_end;
         at += (uint32_t)sizeof(boundary)) {
        const boundary *of = (const void *)(file + at);
        if (!returned(file, starts_at, end, of->link, at))
            return 0;
    }
    return 1;
}

static int turnout_links_right(const uint8_t *file, const layout *found,
                               const starts_map starts_at, uint32_t end)
{
    for (uint32_t at = found->from[TURNOUTS]; at < found->to[TURNOUTS];
         at += (uint32_t)sizeof(turnout)) {
        const turnout *of = (const void *)(file + at);
        uint32_t front = of->link[0], normal = of->link[1];
        uint32_t reverse = of->link[2];
        if ((front != 0
             && (front == normal || front == reverse
                 || !returned(file, starts_at, end, front, at)))
            || (normal != 0
                && (normal == reverse
                    || !returned(file, starts_at, end, normal, at)))
            || (reverse != 0
                && !returned(file, starts_at, end, reverse, at)))
            return 0;
    }
    return 1;
}

/* Previous and next of a balise of place 1, a signal or a joint. */
static int both_links_right(const uint8_t *file, const starts_map starts_at,
                            uint32_t end, uint32_t at)
{
    const balise *of = (const void *)(file + at);
    uint32_t previous = of->link[0], next = of->link[1];
    return (previous == 0
            || (previous != next
                && returned(file, starts_at, end, previous, at)))
        && (next == 0 || returned(file, starts_at, end, next, at));
}

/* A balise of place above 1, which is never the first, has the links of the
 * one before it. */
static int balise_links_right(const uint8_t *file, const layout *found,
                              const starts_map starts_at, uint32_t end)
{
    const balise *before = NULL;
    uint32_t at = found->from[BALISES];
    while (at < found->to[BALISES]) {
        const balise *of = (const void *)(file + at);
        if ((of->group & 7) == 0
                ? !both_links_right(file, starts_at, end, at)
                : of->link[0] != before->link[0]
                    || of->link[1] != before->link[1])
            return 0;
        before = of;
        at += of->size;
    }
    return 1;
}

/* Signals or joints. */
static int joint_links_right(const uint8_t *file, const layout *found,
                             const starts_map starts_at, uint32_t end,
                             int group, uint32_t size)
{
    for (uint32_t at = found->from[group]; at < found->to[group]; at += size)
        if (!both_links_right(file, starts_at, end, at))
            return 0;
    return 1;
}

static int x2_right(const uint8_t *file, size_t length, layout *found)
{
    const x2_header *header = (const void *)file;
    starts_map starts_at;
    uint32_t end = (uint32_t)length - CHECKSUM_SIZE;
    if (length < 69 || length > LARGEST_FILE || !sealed(file, length)
        || !opened(file, 2, 1) || !station_name_right(header->name))
        return 0;
    memset(starts_at, 0, length);
    return boundaries_right(file, end, found, starts_at)
        && groups_right(file, end, found, starts_at)
        && boundary_links_right(file, found, starts_at, end)
        && turnout_links_right(file, found, starts_at, end)
        && balise_links_right(file, found, starts_at, end)
        && joint_links_right(file, found, starts_at, end, SIGNALS,
                             sizeof(signal))
        && joint_links_right(file, found, starts_at, end, JOINTS,
                             sizeof(joint));
}

int plain_x2(const uint8_t *file, size_t length)
{
    layout found;
    return x2_right(file, length, &found);
}

/* ---- the pair */

/* For each track number one more than its end, 0 for no track. */
typedef uint32_t track_ends[TRACK_NUMBERS];

static void find_tracks(const uint8_t *x1, track_ends ends)
{
    const x1_header *header = (const void *)x1;
    const track *tracks = tracks_of(x1);
    memset(ends, 0, sizeof(track_ends));
    for (int i = 0; i < header->tracks; i++)
        ends[tracks[i].number] = tracks[i].end_position + 1;
}

static int boundaries_stand(const uint8_t *file, const layout *found,
                            const track_ends ends)
{
    for (uint32_t at = found->boundaries; at < found->boundaries_end;
         at += (uint32_t)sizeof(boundary)) {
        const boundary *of = (const void *)(file + at);
        if (of->position >= ends[of->track])
            return 0;
    }
    return 1;
}

static int turnouts_stand(const uint8_t *file, const layout *found,
                          const track_ends ends)
{
    for (uint32_t at = found->from[TURNOUTS]; at < found->to[TURNOUTS];
         at += (uint32_t)sizeof(turnout)) {
        const turnout *of = (const void *)(file + at);
        for (int i = 0; i < 3; i++)
            if (of->position[i] >= ends[of->track[i]])
                return 0;
    }
    return 1;
}

static int balises_stand(const uint8_t *file, const layout *found,
                         const track_ends ends)
{
    uint32_t at = found->from[BALISES];
    while (at < found->to[BALISES]) {
        const balise *of = (const void *)(file + at);
        if (of->position >= ends[of->track])
            return 0;
        at += of->size;
    }
    return 1;
}

/* Signals, which begin like joints, or joints. */
static int joints_stand(const uint8_t *file, const layout *found,
                        const track_ends ends, int group, uint32_t size)
{
    for (uint32_t at = found->from[group]; at < found->to[group]; at += size) {
        const joint *of = (const void *)(file + at);
        if (of->position >= ends[of->track])
            return 0;
    }
    return 1;
}

static int sidings_stand(const uint8_t *file, const layout *found,
                         const track_ends ends)
{
    for (uint32_t at = found->from[SIDINGS]; at < found->to[SIDINGS];
         at += (uint32_t)sizeof(siding)) {
        const siding *of = (const void *)(file + at);
        if (ends[of->track] == 0)
            return 0;
    }
    return 1;
}

int plain_pair(const uint8_t *x1, size_t x1_length, const uint8_t *x2,
               size_t x2_length)
{
    const opening *one = (const void *)x1, *other = (const void *)x2;
    track_ends ends;
    layout found;
    if (!plain_x1(x1, x1_length) || !x2_right(x2, x2_length, &found)
        || one->station != other->station)
        return 0;
    find_tracks(x1, ends);
    return boundaries_stand(x2, &found, ends)
        && turnouts_stand(x2, &found, ends)
        && balises_stand(x2, &found, ends)
        && joints_stand(x2, &found, ends, SIGNALS, sizeof(signal))
        && joints_stand(x2, &found, ends, JOINTS, sizeof(joint))
        && sidings_stand(x2, &found, ends);
}
