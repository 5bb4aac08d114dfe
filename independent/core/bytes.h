/* 01, 'Bytes and checksum': numbers from bytes, and how long a file is. */
#ifndef IND_BYTES_H
#define IND_BYTES_H

#include <stddef.h>
#include <stdint.h>

enum {
    IND_BITS_PER_BYTE = 8,
    IND_LARGEST_FILE = 65535,
    IND_CHECKSUM_SIZE = 4,
    IND_OFFSET_SIZE = 2
};

#define IND_LARGEST_POSITION ((uint32_t)2147483647)
#define IND_LARGEST_OF_TWO ((uint32_t)0xFFFF)
#define IND_LARGEST_OF_THREE ((uint32_t)0xFFFFFF)

/* Length minus 4, of a length that is 4 to 65,535. */
static inline uint32_t ind_end(size_t length)
{
    return (uint32_t)length - IND_CHECKSUM_SIZE;
}

/* Numbers at a place of a file, little-endian. The caller has made sure that
 * the bytes are there. */
static inline uint32_t ind_two(const uint8_t *file, uint32_t place)
{
    return (uint32_t)file[place]
        | (uint32_t)file[place + 1] << IND_BITS_PER_BYTE;
}

static inline uint32_t ind_four(const uint8_t *file, uint32_t place)
{
    return (uint32_t)file[place]
        | (uint32_t)file[place + 1] << IND_BITS_PER_BYTE
        | (uint32_t)file[place + 2] << 2 * IND_BITS_PER_BYTE
        | (uint32_t)file[place + 3] << 3 * IND_BITS_PER_BYTE;
}

/* Reads the byte after the three as well, and leaves it out: no field of
 * three bytes is the last of a file. */
static inline uint32_t ind_three(const uint8_t *file, uint32_t place)
{
    return ind_four(file, place) & IND_LARGEST_OF_THREE;
}

static inline uint64_t ind_eight(const uint8_t *file, uint32_t place)
{
    return ind_four(file, place)
        | (uint64_t)ind_four(file, place + 4) << 4 * IND_BITS_PER_BYTE;
}

/* A number of so many bits in two's complement, lengthened to 32 bits. */
static inline uint32_t ind_extended(uint32_t value, unsigned bits)
{
    uint32_t half = (uint32_t)1 << (bits - 1);
    return (value ^ half) - half;
}

/* A number of so many bits, at most 32, read as two's complement: from -2^31
 * to 2^31 - 1. */
static inline int32_t ind_complement(uint32_t value, unsigned bits)
{
    int64_t whole = (int64_t)1 << bits;
    int64_t half = whole / 2;
    return (int32_t)((int64_t)value < half ? (int64_t)value
                                           : (int64_t)value - whole);
}

static inline int32_t ind_signed_two(const uint8_t *file, uint32_t place)
{
    return ind_complement(ind_two(file, place), 2 * IND_BITS_PER_BYTE);
}

static inline int32_t ind_signed_three(const uint8_t *file, uint32_t place)
{
    return ind_complement(ind_three(file, place), 3 * IND_BITS_PER_BYTE);
}

static inline int32_t ind_signed_four(const uint8_t *file, uint32_t place)
{
    return ind_complement(ind_four(file, place), 4 * IND_BITS_PER_BYTE);
}

/* Three bytes as a signed number; no byte after them is read. */
static inline int32_t ind_increment(const uint8_t bytes[3])
{
    uint32_t value =
        ind_two(bytes, 0) | (uint32_t)bytes[2] << 2 * IND_BITS_PER_BYTE;
    return ind_complement(value, 3 * IND_BITS_PER_BYTE);
}

#endif
