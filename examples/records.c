#include "records.h"

#include <stdio.h>
#include <string.h>

#include "core/checksum.h"

enum { ROOM = 8192 };

static uint8_t file[ROOM];
static size_t length;

/* ---- fields */

void change(size_t place, uint32_t value, unsigned bytes)
{
    for (unsigned i = 0; i < bytes; i++)
        file[place + i] = (uint8_t)(value >> 8 * i);
}

void put(uint32_t value, unsigned bytes)
{
    change(length, value, bytes);
    length += bytes;
}

void put_text(const char *text, unsigned bytes)
{
    size_t used = strlen(text);
    for (unsigned i = 0; i < bytes; i++)
        file[length++] = i < used ? (uint8_t)text[i] : 0;
}

int write_file(void)
{
    put(ind_checksum(file, length), 4);
    return fwrite(file, 1, length, stdout) == length && fflush(stdout) == 0;
}

/* ---- both files */

void put_opening(enum file_type type, enum structure version, unsigned data_version, unsigned station)
{
    put(type, 1);
    put(version, 2);
    put(data_version, 2);
    put(station, 2);
}

/* ---- X.1, tables 2 and 3 */

enum { TRACK_SIZE = 30, POINT_SIZE = 13, HEIGHT_SIZE = 2, TRACKS_PLACE = 8 };

static void put_track(const track *t, unsigned first, unsigned point_size)
{
    const point *last = &t->at[t->points - 1];
    put(t->number, 1);
    put(t->property, 1);
    put(0, 4);
    put((uint32_t)t->latitude, 4);
    put((uint32_t)t->longitude, 4);
    put(last->position, 4);
    put((uint32_t)(t->latitude + last->latitude), 4);
    put((uint32_t)(t->longitude + last->longitude), 4);
    put(first, 2);
    put(first + (t->points - 1) * point_size, 2);
}

static void put_point(const point *p)
{
    put(p->position, 4);
    put((uint32_t)p->latitude, 3);
    put((uint32_t)p->longitude, 3);
    put((uint32_t)p->heading, 2);
    put(p->near, 1);
}

void put_tracks(const track *tracks, unsigned count, const track_heights *heights)
{
    unsigned first = TRACKS_PLACE + count * TRACK_SIZE;
    unsigned point_size = heights == NULL ? POINT_SIZE : POINT_SIZE + HEIGHT_SIZE;
    put(count, 1);
    for (unsigned i = 0; i < count; i++) {
        put_track(&tracks[i], first, point_size);
        first += tracks[i].points * point_size;
    }
    for (unsigned i = 0; i < count; i++)
        for (unsigned k = 0; k < tracks[i].points; k++) {
            put_point(&tracks[i].at[k]);
            if (heights != NULL)
                put((uint32_t)heights[i][k], HEIGHT_SIZE);
        }
}

/* ---- X.2, tables 5 to 12 */

void put_entry(unsigned own_track, unsigned offset)
{
    put(own_track, 1);
    put(offset, 2);
}

void put_groups(unsigned turnouts, unsigned balises, unsigned signals, unsigned joints, unsigned sidings)
{
    put(turnouts, 2);
    put(balises, 2);
    put(signals, 2);
    put(joints, 2);
    put(sidings, 2);
}

void put_boundary(unsigned type, unsigned link, unsigned neighbour, unsigned neighbour_type, unsigned neighbour_track,
                  uint32_t position, unsigned own_track)
{
    put(type, 1);
    put(link, 2);
    put(neighbour, 2);
    put(neighbour_type, 1);
    put(neighbour_track, 1);
    put(position, 4);
    put(own_track, 1);
}

void put_turnout(unsigned number, unsigned direction, side front, side normal, side reverse)
{
    put(0x06, 1);
    put(number, 1);
    put(direction, 1);
    put(front.position, 4);
    put(normal.position, 4);
    put(reverse.position, 4);
    put(front.link, 2);
    put(normal.link, 2);
    put(reverse.link, 2);
    put(front.track, 1);
    put(normal.track, 1);
    put(reverse.track, 1);
}

void put_balise(unsigned previous, unsigned next, uint32_t number, uint32_t position, unsigned group, const char *message,
                unsigned bytes)
{
    put(0x33, 1);
    put(previous, 2);
    put(next, 2);
    put(number, 3);
    put(16 + bytes, 1);
    put(PHYSICAL_SAME, 1);
    put(position, 4);
    put(1, 1);
    put(group, 1);
    put_text(message, bytes);
}

/* What a signal and a joint have in common. */
static void put_post(unsigned type, unsigned previous, unsigned next, const char *name, uint32_t position, unsigned own_track)
{
    put(type, 1);
    put(previous, 2);
    put(next, 2);
    put_text(name, 8);
    put(position, 4);
    put(own_track, 1);
}

void put_signal(unsigned previous, unsigned next, const char *name, uint32_t position, unsigned own_track, unsigned kind)
{
    put_post(0xC3, previous, next, name, position, own_track);
    put(kind, 1);
}

void put_joint(unsigned previous, unsigned next, const char *name, uint32_t position, unsigned own_track)
{
    put_post(0xC6, previous, next, name, position, own_track);
}

void put_siding(const char *name, unsigned own_track, uint32_t up_balise, const char *up_signal, uint32_t down_balise,
                const char *down_signal)
{
    put(0xCC, 1);
    put_text(name, 8);
    put(own_track, 1);
    put(up_balise, 3);
    put_text(up_signal, 8);
    put(down_balise, 3);
    put_text(down_signal, 8);
}
