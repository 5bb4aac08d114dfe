/* The checksum comparison: a fixed stream of stored files, and their sums.
 * In the stream each file is its length in four bytes, low byte first, and
 * then its bytes. */
#include <stdio.h>

#include "commands.h"
#include "core/core.h"
#include "generator/random.h"

enum {
    LENGTH_SIZE = 4,
    EVERY_SHORT_LENGTH = 20,
    PATTERNED_UP_TO = 1100
};

#define SUMS_SEED UINT64_C(2024)

typedef enum {
    ALL_ZERO,
    ALL_ONES,
    COUNTING,
    ALTERNATING,
    SINGLE_BIT,
    PSEUDO_RANDOM,
    FILLINGS
} filling;

/* Lengths beyond the short ones: beside powers of two, beside the sizes that
 * a block reader would trip over. */
static const uint32_t longer_lengths[] = {
    23,  31,  32,  33,  63,   64,   65,   67,   68,   69,   127,  128, 129,
    255, 256, 257, 511, 512,  513,  1023, 1024, 1025, 2047, 2048, 2049,
    4095, 4096, 4097, 8191, 8192, 8193
};

/* The longest files; one filling each keeps the stream short. */
static const struct {
    uint32_t length;
    filling with;
} longest[] = {
    { 65533, PSEUDO_RANDOM }, { 65534, COUNTING }, { 65535, PSEUDO_RANDOM },
    { 65535, ALL_ONES },      { 65535, ALL_ZERO }
};

static void fill(source *from, filling with, uint8_t *bytes, uint32_t length)
{
    uint32_t bit = draw(from, length * IND_BITS_PER_BYTE);
    for (uint32_t i = 0; i < length; i++) {
        switch (with) {
        case ALL_ONES: bytes[i] = 0xFF; break;
        case COUNTING: bytes[i] = (uint8_t)i; break;
        case ALTERNATING: bytes[i] = i % 2 ? 0xAA : 0x55; break;
        case PSEUDO_RANDOM: bytes[i] = (uint8_t)draw_bits(from); break;
        default: bytes[i] = 0; break;
        }
    }
    if (with == SINGLE_BIT)
        bytes[bit / IND_BITS_PER_BYTE] =
            (uint8_t)(1u << bit % IND_BITS_PER_BYTE);
}

static void write_file(source *from, filling with, uint32_t length)
{
    static uint8_t bytes[IND_LARGEST_FILE];
    uint8_t head[LENGTH_SIZE];
    for (int i = 0; i < LENGTH_SIZE; i++)
        head[i] = (uint8_t)(length >> IND_BITS_PER_BYTE * i);
    fill(from, with, bytes, length);
    fwrite(head, 1, sizeof head, stdout);
    fwrite(bytes, 1, length, stdout);
}

/* Short files take every filling, longer ones only pseudo-random bytes. */
static void write_length(source *from, uint32_t length)
{
    int with = length > PATTERNED_UP_TO ? PSEUDO_RANDOM : ALL_ZERO;
    for (; with < FILLINGS; with++)
        write_file(from, (filling)with, length);
}

int command_sums_files(void)
{
    source from = source_from(SUMS_SEED);
    for (uint32_t length = 1; length <= EVERY_SHORT_LENGTH; length++)
        write_length(&from, length);
    for (size_t i = 0; i < sizeof longer_lengths / sizeof *longer_lengths; i++)
        write_length(&from, longer_lengths[i]);
    for (size_t i = 0; i < sizeof longest / sizeof *longest; i++)
        write_file(&from, longest[i].with, longest[i].length);
    return RUN_WELL;
}

int command_sums(void)
{
    static uint8_t bytes[IND_LARGEST_FILE];
    uint8_t head[LENGTH_SIZE];
    size_t got;
    while ((got = fread(head, 1, sizeof head, stdin)) == sizeof head) {
        uint32_t length = ind_four(head, 0);
        if (length > IND_LARGEST_FILE
            || fread(bytes, 1, length, stdin) != length) {
            fputs("independent: a stored file is too long or cut off\n",
                  stderr);
            return RUN_BAD;
        }
        printf("%lu %lu\n", (unsigned long)length,
               (unsigned long)ind_checksum(bytes, length));
    }
    if (ferror(stdin))
        fputs("independent: standard input cannot be read\n", stderr);
    else if (got != 0)
        fputs("independent: the last length is cut off\n", stderr);
    return got == 0 && !ferror(stdin) ? RUN_WELL : RUN_BAD;
}
