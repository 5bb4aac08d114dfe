/* Damage that both files can take. */
#include "damage.h"

#include <string.h>

#include "core/core.h"

uint32_t edge_position(source *from, uint32_t old)
{
    const uint32_t values[] = { 0,       1,
                                old - 1, old + 1,
                                IND_LARGEST_POSITION,
                                IND_LARGEST_POSITION + 1,
                                IND_LARGEST_POSITION - 1, 0xFFFFFFFF };
    return ONE_OF(from, values);
}

uint32_t edge_offset(source *from, uint32_t old, uint32_t end)
{
    const uint32_t values[] = { 0,        1,
                                old - 1,  old + 1,
                                end - 1,  end,
                                end + 1,  65535,
                                old };
    static const uint32_t sizes[] = { IND_POINT_SIZE_1,  IND_POINT_SIZE_2,
                                      IND_BOUNDARY_SIZE, IND_TURNOUT_SIZE,
                                      IND_BALISE_PLAIN_SIZE,
                                      IND_SIGNAL_SIZE,   IND_JOINT_SIZE,
                                      IND_SIDING_SIZE };
    uint32_t size = ONE_OF(from, sizes);
    switch (draw(from, 3)) {
    case 0: return old - size;
    case 1: return old + size;
    default: return ONE_OF(from, values);
    }
}

void damage_version(source *from, stored *file)
{
    static const uint32_t versions[] = { 0,
                                         IND_VERSION_1,
                                         IND_VERSION_2,
                                         IND_VERSION_2 + 1,
                                         256,
                                         256 + IND_VERSION_1,
                                         256 + IND_VERSION_2,
                                         IND_LARGEST_OF_TWO };
    uint32_t version = ONE_OF(from, versions);
    if (once_in(from, 4))
        version = draw(from, IND_LARGEST_OF_TWO + 1);
    put_two(file->bytes, IND_STRUCTURE_VERSION_PLACE, version);
}

void damage_opening(source *from, stored *file)
{
    static const uint8_t types[] = { 0, 1, 2, 3, 255 };
    switch (draw(from, 4)) {
    case 0:
        file->bytes[IND_FILE_TYPE_PLACE] = ONE_OF(from, types);
        break;
    case 1: damage_version(from, file); break;
    case 2: put_two(file->bytes, IND_DATA_VERSION_PLACE, 0); break;
    default: put_two(file->bytes, IND_STATION_PLACE, 0); break;
    }
}

void swap_type(stored *file)
{
    file->bytes[IND_FILE_TYPE_PLACE] ^= IND_X1_TYPE ^ IND_X2_TYPE;
}

void flip_bits(source *from, stored *file)
{
    uint32_t flips = 1 + draw(from, 3);
    while (flips-- > 0 && file->length > 0) {
        uint32_t place = draw(from, file->length);
        file->bytes[place] ^= (uint8_t)(1u << draw(from, IND_BITS_PER_BYTE));
    }
}

void remove_bytes(stored *file, uint32_t place, uint32_t count)
{
    if (place + count > file->length)
        return;
    memmove(file->bytes + place, file->bytes + place + count,
            file->length - place - count);
    file->length -= count;
}

void insert_bytes(source *from, stored *file, uint32_t place, uint32_t count)
{
    if (place > file->length || file->length + count > FILE_ROOM)
        return;
    memmove(file->bytes + place + count, file->bytes + place,
            file->length - place);
    for (uint32_t i = 0; i < count; i++)
        file->bytes[place + i] = (uint8_t)draw_bits(from);
    file->length += count;
}

/* A length to cut a file to: at the least lengths or anywhere. */
static uint32_t cut_length(source *from, uint32_t length)
{
    const uint32_t values[] = { 0,
                                1,
                                IND_CHECKSUM_SIZE - 1,
                                IND_CHECKSUM_SIZE,
                                IND_CHECKSUM_SIZE + 1,
                                IND_X1_LEAST_LENGTH - 1,
                                IND_X1_LEAST_LENGTH,
                                IND_X2_LEAST_LENGTH,
                                IND_X2_LEAST_LENGTH + 1,
                                IND_X1_LEAST_LENGTH_2 - 1,
                                IND_X1_LEAST_LENGTH_2,
                                length / 2,
                                draw(from, length + 1),
                                length - 1,
                                length - IND_CHECKSUM_SIZE,
                                length - IND_POINT_SIZE_1,
                                length - IND_POINT_SIZE_2,
                                length - IND_JOINT_SIZE };
    uint32_t cut = ONE_OF(from, values);
    return cut < length ? cut : length;
}

/* Cut off at the end, or a few bytes removed or inserted before the
 * checksum or anywhere. */
void change_length(source *from, stored *file)
{
    static const uint32_t counts[] = { 1, 2, IND_POINT_SIZE_1,
                                       IND_POINT_SIZE_2,
                                       IND_BOUNDARY_SIZE, IND_TURNOUT_SIZE,
                                       IND_BALISE_PLAIN_SIZE, IND_SIGNAL_SIZE,
                                       IND_JOINT_SIZE, IND_SIDING_SIZE };
    uint32_t count = ONE_OF(from, counts);
    uint32_t end = file->length - IND_CHECKSUM_SIZE;
    uint32_t where;
    switch (draw(from, 5)) {
    case 0: file->length = cut_length(from, file->length); break;
    case 1: insert_bytes(from, file, end, count); break;
    case 2:
        if (count < end)
            remove_bytes(file, end - count, count);
        break;
    case 3:
        where = draw(from, end);
        insert_bytes(from, file, where, count);
        break;
    default:
        where = draw(from, end);
        remove_bytes(file, where, count);
        break;
    }
}

void random_bytes(source *from, stored *file)
{
    file->length = draw(from, once_in(from, 4) ? 2000 : 200);
    for (uint32_t i = 0; i < file->length; i++)
        file->bytes[i] = (uint8_t)draw_bits(from);
    if (file->length > IND_STRUCTURE_VERSION_PLACE + 1 && !once_in(from, 3)) {
        file->bytes[IND_FILE_TYPE_PLACE] = (uint8_t)(1 + draw(from, 2));
        put_two(file->bytes, IND_STRUCTURE_VERSION_PLACE,
                IND_VERSION_1 + draw(from, 2));
    }
}

void over_long(source *from, stored *file)
{
    uint32_t more = once_in(from, 2) ? 1 : 1 + draw(from, 100);
    while (file->length < IND_LARGEST_FILE + more)
        file->bytes[file->length++] = 0;
}
