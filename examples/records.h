/* The records of the two station files, written one after the other into one file. Field orders are those of the standard's tables; every
 * number stands with its low byte first. */
#ifndef RECORDS_H
#define RECORDS_H

#include <stddef.h>
#include <stdint.h>

/* ---- fields */

/* A number, in so many bytes. */
void put(uint32_t value, unsigned bytes);

/* A text, filled up with zeros. */
void put_text(const char *text, unsigned bytes);

/* The same as put, at a place that has been written before. */
void change(size_t place, uint32_t value, unsigned bytes);

/* Closes the file with its checksum and writes it to standard output. Returns whether that went well. */
int write_file(void);

/* ---- both files */

enum file_type { GEOGRAPHY = 1, APPLICATION = 2 };

/* Structure versions: points have heights in an X.1 of version 2; an X.2 has version 1. */
enum structure { VERSION_1 = 1, VERSION_2 = 2 };

void put_opening(enum file_type type, enum structure version, unsigned data_version, unsigned station);

/* ---- X.1, tables 2 and 3 */

enum { MOST_POINTS = 8 };

/* The near flag. */
enum near { ALONE = 0, NEAR = 1 };

typedef struct {
    uint32_t position;
    int32_t latitude, longitude, heading;
    enum near near;
} point;

typedef struct {
    unsigned number, property;
    int32_t latitude, longitude;
    unsigned points;
    point at[MOST_POINTS];
} track;

/* The heights of a track's points, in decimetres. */
typedef int32_t track_heights[MOST_POINTS];

/* The track count, the tracks' entries and all their points: in version 2 with the heights of each track, in version 1 with a null pointer
 * for them. */
void put_tracks(const track *tracks, unsigned count, const track_heights *heights);

/* ---- X.2, tables 5 to 12 */

enum { UP_START = 0x00, DOWN_START = 0x01, UP_END = 0xFF, DOWN_END = 0xFE, UNKNOWN = 0x55 };
enum { PHYSICAL_SAME = 0x81, FIRST_OF_TWO = 0x20, SECOND_OF_TWO = 0x21 };
enum { DOWN_ENTRY = 0x41, UP_ENTRY = 0x81, UP_EXIT = 0x82, DOWN_SHUNTING = 0x45 };
enum { NO_BALISE = 0xFFFFFF };

/* One side of a turnout. */
typedef struct {
    uint32_t position;
    unsigned link, track;
} side;

/* A boundary's track and offset in the header. */
void put_entry(unsigned own_track, unsigned offset);

/* The header's last five offsets. */
void put_groups(unsigned turnouts, unsigned balises, unsigned signals, unsigned joints, unsigned sidings);

void put_boundary(unsigned type, unsigned link, unsigned neighbour, unsigned neighbour_type, unsigned neighbour_track,
                  uint32_t position, unsigned own_track);
void put_turnout(unsigned number, unsigned direction, side front, side normal, side reverse);
void put_balise(unsigned previous, unsigned next, uint32_t number, uint32_t position, unsigned group, const char *message,
                unsigned bytes);
void put_signal(unsigned previous, unsigned next, const char *name, uint32_t position, unsigned own_track, unsigned kind);
void put_joint(unsigned previous, unsigned next, const char *name, uint32_t position, unsigned own_track);
void put_siding(const char *name, unsigned own_track, uint32_t up_balise, const char *up_signal, uint32_t down_balise,
                const char *down_signal);

#endif
