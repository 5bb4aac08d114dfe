/* The sample station: a ladder of three turnouts between a double line.
 *
 *   line I   B1 -- X1 -- balises -- [1] ------------------ J1 -- B3
 *                                     \
 *   siding 3                          [2] -- S3 -- J3 (buffer)
 *                                       \
 *   siding 4                             `-- S4 -- J4 --.
 *                                                        \
 *   line II  B2 -- X2 ---------------------------------- [3] -- J2 -- B4
 *
 * station 1 writes its X.1 to standard output, station 1-heights the same X.1 in structure version 2, with heights, and station 2 its X.2.
 * station 2-next writes the X.2 of the next data version: line II has one joint more, J5 between X2 and turnout 3, and all else is the same.
 * The track of each line starts at its start boundary; positions are in centimetres, coordinates in milliarcseconds, heights in decimetres.
 * The balises are a group of two: both have the same links, and others link to number 1 alone. X1 is named with a space in between, and J3
 * has no name. Tables are those of the standard. */
#include <stdio.h>
#include <string.h>

#include "records.h"

enum { STATION = 312, DATA_VERSION = 7, NEXT_DATA_VERSION };

/* ---- X.1 */

enum { TRACKS = 4 };

static const track tracks[TRACKS] = {
    { 1, 1, 164880000, 455760000, 7,
      { { 0, 0, 0, 0, NEAR }, { 20000, 2212, 8718, 0, NEAR }, { 40000, 4424, 17436, 0, NEAR }, { 60000, 6636, 26154, 0, NEAR },
        { 80000, 8848, 34872, 0, NEAR }, { 100000, 11060, 43590, 0, NEAR }, { 118000, 13051, 51436, 0, NEAR } } },
    { 2, 1, 164879848, 455760079, 7,
      { { 0, 0, 0, 0, NEAR }, { 20000, 2212, 8718, 0, NEAR }, { 40000, 4424, 17436, 0, NEAR }, { 60000, 6636, 26154, 0, NEAR },
        { 80000, 8848, 34872, 0, NEAR }, { 100000, 11060, 43590, 0, NEAR }, { 118000, 13051, 51436, 0, NEAR } } },
    { 3, 2, 164883201, 455773424, 4,
      { { 0, 0, 0, 0, NEAR }, { 4000, 205, 1853, 1110, NEAR }, { 20000, 1974, 8827, -1110, NEAR }, { 33000, 3412, 14494, 0, ALONE } } },
    { 4, 2, 164882323, 455769154, 5,
      { { 0, 0, 0, 0, NEAR }, { 9000, 878, 4270, 1110, NEAR }, { 25000, 2648, 11244, -1110, NEAR }, { 45000, 4860, 19962, 0, NEAR },
        { 58000, 6195, 25870, 1110, NEAR } } },
};

/* Both lines fall to below the level that heights are counted from, and rise again. */
static const track_heights heights[TRACKS] = {
    { 31, 24, 12, 0, -6, 3, 17 },
    { 32, 25, 13, 1, -5, 4, 18 },
    { 17, 15, 9, 4 },
    { 22, 19, 10, 2, -4 },
};

static void put_geography(void)
{
    put_opening(GEOGRAPHY, VERSION_1, DATA_VERSION, STATION);
    put_tracks(tracks, TRACKS, NULL);
}

static void put_geography_with_heights(void)
{
    put_opening(GEOGRAPHY, VERSION_2, DATA_VERSION, STATION);
    put_tracks(tracks, TRACKS, heights);
}

/* ---- X.2 */

enum { MESSAGE = 6, BALISE_NUMBER = 0x31204 };

/* Where each record stands: they follow each other without gaps. */
enum {
    B1 = 47,
    B2 = B1 + 12,
    B3 = B2 + 12,
    B4 = B3 + 12,
    T1 = B4 + 12,
    T2 = T1 + 24,
    T3 = T2 + 24,
    FIRST_BALISE = T3 + 24,
    SECOND_BALISE = FIRST_BALISE + 16 + MESSAGE,
    X1 = SECOND_BALISE + 16,
    X2 = X1 + 19,
    S3 = X2 + 19,
    S4 = S3 + 19,
    J1 = S4 + 19,
    J2 = J1 + 18,
    J3 = J2 + 18,
    J4 = J3 + 18,
    SIDING_3 = J4 + 18,
    SIDING_4 = SIDING_3 + 32,
    /* In the next data version J5 stands behind J4, and the sidings stand behind it. */
    J5 = J4 + 18,
    NEXT_SIDING_3 = J5 + 18
};

static void put_application_header(unsigned data_version, unsigned sidings)
{
    put_opening(APPLICATION, VERSION_1, data_version, STATION);
    put_text("\xB1\xB1\xC1\xEB", 16);
    put(2, 1);
    put_entry(1, B1);
    put_entry(2, B2);
    put(2, 1);
    put_entry(1, B3);
    put_entry(2, B4);
    put_groups(T1, FIRST_BALISE, X1, J1, sidings);
}

/* The records up to J4, with what follows X2 on line II and what stands before turnout 3 there. */
static void put_objects(unsigned after_x2, unsigned before_t3)
{
    put_boundary(DOWN_START, X1, 311, DOWN_END, 1, 0, 1);
    put_boundary(UP_START, X2, 311, UP_END, 2, 0, 2);
    put_boundary(DOWN_END, J1, 313, DOWN_START, 1, 118000, 1);
    put_boundary(UP_END, J2, 0, UNKNOWN, 0, 118000, 2);
    put_turnout(1, 1, (side){ 21000, FIRST_BALISE, 1 }, (side){ 24300, J1, 1 }, (side){ 3300, T2, 4 });
    put_turnout(2, 1, (side){ 6000, T1, 4 }, (side){ 0, S3, 3 }, (side){ 9300, S4, 4 });
    put_turnout(3, 0, (side){ 83300, J2, 2 }, (side){ 80000, before_t3, 2 }, (side){ 54700, J4, 4 });
    put_balise(X1, T1, BALISE_NUMBER, 12000, FIRST_OF_TWO, "\x90\x02\x7F\x81\x3C\xFF", MESSAGE);
    put_balise(X1, T1, BALISE_NUMBER + 1, 12500, SECOND_OF_TWO, "", 0);
    put_signal(B1, FIRST_BALISE, "X 1", 9000, 1, DOWN_ENTRY);
    put_signal(B2, after_x2, "X2", 9000, 2, UP_ENTRY);
    put_signal(T2, J3, "S3", 6000, 3, UP_EXIT);
    put_signal(T2, J4, "S4", 12500, 4, DOWN_SHUNTING);
    put_joint(T1, B3, "J1", 96000, 1);
    put_joint(T3, B4, "J2", 97000, 2);
    put_joint(S3, 0, "", 32500, 3);
    put_joint(S4, T3, "J4", 50000, 4);
}

static void put_sidings(void)
{
    put_siding("3G", 3, NO_BALISE, "S3", NO_BALISE, "");
    put_siding("4G", 4, BALISE_NUMBER, "S4", NO_BALISE, "");
}

static void put_application(void)
{
    put_application_header(DATA_VERSION, SIDING_3);
    put_objects(T3, X2);
    put_sidings();
}

static void put_next_application(void)
{
    put_application_header(NEXT_DATA_VERSION, NEXT_SIDING_3);
    put_objects(J5, J5);
    put_joint(X2, T3, "J5", 60000, 2);
    put_sidings();
}

/* ---- the files */

static const struct {
    const char *name;
    void (*put)(void);
} files[] = {
    { "1", put_geography },
    { "1-heights", put_geography_with_heights },
    { "2", put_application },
    { "2-next", put_next_application },
};

enum { FILES = sizeof files / sizeof files[0] };

int main(int count, char **words)
{
    for (unsigned i = 0; count == 2 && i < FILES; i++)
        if (strcmp(words[1], files[i].name) == 0) {
            files[i].put();
            return write_file() ? 0 : 1;
        }
    fputs("usage: station 1|1-heights|2|2-next\n", stderr);
    return 2;
}
