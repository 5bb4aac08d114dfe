/* Numbers put into a file, and its checksum. */
#include "stored.h"

#include "core/core.h"

void put_two(uint8_t *bytes, uint32_t place, uint32_t value)
{
    bytes[place] = (uint8_t)value;
    bytes[place + 1] = (uint8_t)(value >> IND_BITS_PER_BYTE);
}

void put_three(uint8_t *bytes, uint32_t place, uint32_t value)
{
    put_two(bytes, place, value);
    bytes[place + 2] = (uint8_t)(value >> 2 * IND_BITS_PER_BYTE);
}

void put_four(uint8_t *bytes, uint32_t place, uint32_t value)
{
    put_three(bytes, place, value);
    bytes[place + 3] = (uint8_t)(value >> 3 * IND_BITS_PER_BYTE);
}

void put_opening(uint8_t *bytes, uint8_t type, uint32_t data_version,
                 uint32_t station)
{
    bytes[IND_FILE_TYPE_PLACE] = type;
    put_two(bytes, IND_STRUCTURE_VERSION_PLACE, IND_VERSION_1);
    put_two(bytes, IND_DATA_VERSION_PLACE, data_version);
    put_two(bytes, IND_STATION_PLACE, station);
}

void put_group(uint8_t *balise, uint32_t place, uint32_t count)
{
    balise[IND_BALISE_GROUP] =
        (uint8_t)((count - 1) << IND_GROUP_COUNT_SHIFT | (place - 1));
}

void seal(stored *file)
{
    if (file->length >= IND_CHECKSUM_SIZE && file->length <= FILE_ROOM)
        put_four(file->bytes, file->length - IND_CHECKSUM_SIZE,
                 ind_checksum(file->bytes, file->length - IND_CHECKSUM_SIZE));
}
