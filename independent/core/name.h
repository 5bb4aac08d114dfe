/* 02's ticket 10: the name in a field of 8 bytes. Its bytes are 0x20 to 0x7E,
 * neither the first nor the last of them is a space, and only 0x00 follows.
 * An empty name fits too; whose name it is says whether it may be empty. */
#ifndef IND_NAME_H
#define IND_NAME_H

#include "tables.h"

/* No name's number of bytes. */
enum {
    IND_NO_NAME = IND_NAME_SIZE + 1
};

/* A byte in each of a field's eight, and the high bit of one and of each. */
#define IND_IN_EACH(byte) (UINT64_C(0x0101010101010101) * (byte))
#define IND_HIGH_BIT UINT64_C(0x80)
#define IND_HIGH_BITS IND_IN_EACH(IND_HIGH_BIT)

/* The high bit of each byte says whether it is at least so much, where none has
 * its high bit set; the other bits say nothing. */
static inline uint64_t ind_at_least(uint64_t bytes, uint32_t least)
{
    return bytes + IND_IN_EACH(IND_HIGH_BIT - least);
}

/* Whether a field's eight bytes are a name, or an empty one. A byte is wrong
 * where it is above 0x7E, where it is not 0 and under 0x20, where it is 0 and
 * the byte after it is not, and where it is a space and one of the two beside
 * it is 0 or outside the field. */
static inline int ind_is_name(uint64_t bytes)
{
    uint64_t used = ind_at_least(bytes, 1);
    uint64_t before = used << IND_BITS_PER_BYTE;
    uint64_t after = used >> IND_BITS_PER_BYTE;
    uint64_t above = bytes | ind_at_least(bytes, IND_NAME_LARGEST + 1);
    uint64_t below = used ^ ind_at_least(bytes, IND_SPACE);
    uint64_t space = used ^ ind_at_least(bytes, IND_SPACE + 1);
    return ((above | below | (~used & after) | (space & ~(before & after)))
            & IND_HIGH_BITS) == 0;
}

/* How many of the eight bytes are not 0, where none has its high bit set: the
 * product's highest byte is the sum of them all, 1 for each. */
static inline uint32_t ind_used(uint64_t bytes)
{
    uint64_t ones = (ind_at_least(bytes, 1) & IND_HIGH_BITS) / IND_HIGH_BIT;
    return (uint32_t)(IND_IN_EACH(ones)
                      >> (IND_NAME_SIZE - 1) * IND_BITS_PER_BYTE);
}

/* How many bytes the name in the field at a place has, 0 where it is empty;
 * IND_NO_NAME where the field holds none. */
static inline uint32_t ind_name_bytes(const uint8_t *file, uint32_t place)
{
    uint64_t bytes = ind_eight(file, place);
    return ind_is_name(bytes) ? ind_used(bytes) : (uint32_t)IND_NO_NAME;
}

#endif
