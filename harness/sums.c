/* The checksum as plain C loops over tables that are made once. */
#include "sums.h"

enum {
    TABLES = 16,
    EIGHT = 8,
    BYTE_VALUES = 256
};

/* What the register becomes that has a byte value at its high end and 0
 * below, when so many bytes and one more have passed. */
static uint32_t table[TABLES][BYTE_VALUES];

static uint32_t with_byte(uint32_t value, uint8_t byte)
{
    return value << 8 ^ table[0][value >> 24 ^ byte];
}

void make_sum_tables(void)
{
    const uint32_t mask = 0xD20D8A81;
    for (uint32_t byte = 0; byte < BYTE_VALUES; byte++) {
        uint32_t value = byte << 24;
        for (int bit = 0; bit < 8; bit++)
            value = value & 0x80000000 ? value << 1 ^ mask : value << 1;
        table[0][byte] = value;
    }
    for (int i = 1; i < TABLES; i++)
        for (uint32_t byte = 0; byte < BYTE_VALUES; byte++)
            table[i][byte] = with_byte(table[i - 1][byte], 0);
}

uint32_t sum_by_table(const uint8_t *bytes, size_t length)
{
    uint32_t value = 0xFFFFFFFF;
    for (size_t i = 0; i < length; i++)
        value = with_byte(value, bytes[i]);
    return value;
}

static uint32_t four(const uint8_t *bytes)
{
    return (uint32_t)bytes[0] << 24 | (uint32_t)bytes[1] << 16
        | (uint32_t)bytes[2] << 8 | bytes[3];
}

/* What four bytes become after which so many others pass. */
static uint32_t passed(uint32_t bytes, int others)
{
    return (table[others + 3][bytes >> 24]
            ^ table[others + 2][bytes >> 16 & 0xFF])
        ^ (table[others + 1][bytes >> 8 & 0xFF]
           ^ table[others][bytes & 0xFF]);
}

uint32_t sum_by_eight(const uint8_t *bytes, size_t length)
{
    uint32_t value = 0xFFFFFFFF;
    for (; length >= EIGHT; length -= EIGHT) {
        uint32_t later = passed(four(bytes + 4), 0);
        value = passed(value ^ four(bytes), 4) ^ later;
        bytes += EIGHT;
    }
    while (length-- > 0)
        value = with_byte(value, *bytes++);
    return value;
}

uint32_t sum_by_sixteen(const uint8_t *bytes, size_t length)
{
    uint32_t value = 0xFFFFFFFF;
    for (; length >= TABLES; length -= TABLES) {
        uint32_t later = passed(four(bytes + 4), 8)
            ^ passed(four(bytes + 8), 4) ^ passed(four(bytes + 12), 0);
        value = passed(value ^ four(bytes), 12) ^ later;
        bytes += TABLES;
    }
    while (length-- > 0)
        value = with_byte(value, *bytes++);
    return value;
}
