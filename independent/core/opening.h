/* What X.1 and X.2 begin with: the header's first fields and checks 1 to 4. */
#ifndef IND_OPENING_H
#define IND_OPENING_H

#include "answer.h"
#include "bytes.h"

/* The header's first fields, alike in X.1 and X.2. */
enum {
    IND_FILE_TYPE_PLACE = 0,
    IND_STRUCTURE_VERSION_PLACE = 1,
    IND_DATA_VERSION_PLACE = 3,
    IND_STATION_PLACE = 5
};

/* Structure versions: an X.2 has the first, an X.1 either (02, ticket 11). */
enum {
    IND_VERSION_1 = 1,
    IND_VERSION_2 = 2
};

static inline uint32_t ind_version(const uint8_t *file)
{
    return ind_two(file, IND_STRUCTURE_VERSION_PLACE);
}

/* Checks 1 to 4: length, checksum, file type, structure version. The reader
 * knows the versions from 1 up to the newest. */
ind_answer ind_opening(const uint8_t *file, size_t length, size_t least,
                       uint8_t type, uint32_t newest);

/* The place of a wrong data version or station, else IND_NO_FAULT. */
uint32_t ind_opening_field_fault(const uint8_t *file);

#endif
