/* 01, 'Bytes and checksum': the checksum. */
#include "checksum.h"

#include "bytes.h"

#define TERM(degree) ((uint32_t)1 << (degree))

/* The terms of 6.6 in the page's order; that of degree 32 is understood. */
#define CHECKSUM_MASK                                                        \
    (TERM(31) | TERM(30) | TERM(28) | TERM(25) | TERM(19) | TERM(18) |       \
     TERM(16) | TERM(15) | TERM(11) | TERM(9) | TERM(7) | TERM(0))
#define CHECKSUM_START ((uint32_t)0xFFFFFFFF)
#define CHECKSUM_HIGH_BYTE_SHIFT 24

enum {
    TURN_SIZE = 16,
    BYTE_VALUES = 256,
    LOW_BYTE = 0xFF
};

/* What the register becomes of each bit of its high byte, the lowest first,
 * when that byte has left the high end and so many others after it. Each is
 * the one before it, shifted once more. */
#define PASSED_0 0xD20D8A81u, 0x76169F83u, 0xEC2D3F06u, 0x0A57F48Du,         \
                 0x14AFE91Au, 0x295FD234u, 0x52BFA468u, 0xA57F48D0u
#define PASSED_1 0x98F31B21u, 0xE3EBBCC3u, 0x15DAF307u, 0x2BB5E60Eu,         \
                 0x576BCC1Cu, 0xAED79838u, 0x8FA2BAF1u, 0xCD48FF63u
#define PASSED_2 0x489C7447u, 0x9138E88Eu, 0xF07C5B9Du, 0x32F53DBBu,         \
                 0x65EA7B76u, 0xCBD4F6ECu, 0x45A46759u, 0x8B48CEB2u
#define PASSED_3 0xC49C17E5u, 0x5B35A54Bu, 0xB66B4A96u, 0xBEDB1FADu,         \
                 0xAFBBB5DBu, 0x8D7AE137u, 0xC8F848EFu, 0x43FD1B5Fu
#define PASSED_4 0x87FA36BEu, 0xDDF9E7FDu, 0x69FE457Bu, 0xD3FC8AF6u,         \
                 0x75F49F6Du, 0xEBE93EDAu, 0x05DFF735u, 0x0BBFEE6Au
#define PASSED_5 0x177FDCD4u, 0x2EFFB9A8u, 0x5DFF7350u, 0xBBFEE6A0u,         \
                 0xA5F047C1u, 0x99ED0503u, 0xE1D78087u, 0x11A28B8Fu
#define PASSED_6 0x2345171Eu, 0x468A2E3Cu, 0x8D145C78u, 0xC8253271u,         \
                 0x4247EE63u, 0x848FDCC6u, 0xDB12330Du, 0x6429EC9Bu
#define PASSED_7 0xC853D936u, 0x42AA38EDu, 0x855471DAu, 0xD8A56935u,         \
                 0x634758EBu, 0xC68EB1D6u, 0x5F10E92Du, 0xBE21D25Au
#define PASSED_8 0xAE4E2E35u, 0x8E91D6EBu, 0xCF2E2757u, 0x4C51C42Fu,         \
                 0x98A3885Eu, 0xE34A9A3Du, 0x1498BEFBu, 0x29317DF6u
#define PASSED_9 0x5262FBECu, 0xA4C5F7D8u, 0x9B866531u, 0xE50140E3u,         \
                 0x180F0B47u, 0x301E168Eu, 0x603C2D1Cu, 0xC0785A38u
#define PASSED_10 0x52FD3EF1u, 0xA5FA7DE2u, 0x99F97145u, 0xE1FF680Bu,        \
                  0x11F35A97u, 0x23E6B52Eu, 0x47CD6A5Cu, 0x8F9AD4B8u
#define PASSED_11 0xCD3823F1u, 0x487DCD63u, 0x90FB9AC6u, 0xF3FABF0Du,        \
                  0x35F8F49Bu, 0x6BF1E936u, 0xD7E3D26Cu, 0x7DCA2E59u
#define PASSED_12 0xFB945CB2u, 0x252533E5u, 0x4A4A67CAu, 0x9494CF94u,        \
                  0xFB2415A9u, 0x2445A1D3u, 0x488B43A6u, 0x9116874Cu
#define PASSED_13 0xF0208419u, 0x324C82B3u, 0x64990566u, 0xC9320ACCu,        \
                  0x40699F19u, 0x80D33E32u, 0xD3ABF6E5u, 0x755A674Bu
#define PASSED_14 0xEAB4CE96u, 0x076417ADu, 0x0EC82F5Au, 0x1D905EB4u,        \
                  0x3B20BD68u, 0x76417AD0u, 0xEC82F5A0u, 0x0B0861C1u
#define PASSED_15 0x1610C382u, 0x2C218704u, 0x58430E08u, 0xB0861C10u,        \
                  0xB301B2A1u, 0xB40EEFC3u, 0xBA105507u, 0xA62D208Fu

/* One bit leaves the register at the high end; a 1 brings the mask in. */
#define SHIFTED(value)                                                       \
    ((value) << 1 ^ ((value) & TERM(31) ? CHECKSUM_MASK : 0))

/* The list above holds no other number: the compiler works it out. */
#define EACH_SHIFTED(...) EACH_SHIFTED_OF(__VA_ARGS__)
#define EACH_SHIFTED_OF(before, a, b, c, d, e, f, g, h)                      \
    (SHIFTED(before) == a && SHIFTED(a) == b && SHIFTED(b) == c              \
     && SHIFTED(c) == d && SHIFTED(d) == e && SHIFTED(e) == f                \
     && SHIFTED(f) == g && SHIFTED(g) == h)
#define LAST(...) LAST_OF(__VA_ARGS__)
#define LAST_OF(a, b, c, d, e, f, g, h) h

typedef char every_number_is_the_one_before_it_shifted
    [EACH_SHIFTED(TERM(31), PASSED_0) && EACH_SHIFTED(LAST(PASSED_0), PASSED_1)
     && EACH_SHIFTED(LAST(PASSED_1), PASSED_2)
     && EACH_SHIFTED(LAST(PASSED_2), PASSED_3)
     && EACH_SHIFTED(LAST(PASSED_3), PASSED_4)
     && EACH_SHIFTED(LAST(PASSED_4), PASSED_5)
     && EACH_SHIFTED(LAST(PASSED_5), PASSED_6)
     && EACH_SHIFTED(LAST(PASSED_6), PASSED_7)
     && EACH_SHIFTED(LAST(PASSED_7), PASSED_8)
     && EACH_SHIFTED(LAST(PASSED_8), PASSED_9)
     && EACH_SHIFTED(LAST(PASSED_9), PASSED_10)
     && EACH_SHIFTED(LAST(PASSED_10), PASSED_11)
     && EACH_SHIFTED(LAST(PASSED_11), PASSED_12)
     && EACH_SHIFTED(LAST(PASSED_12), PASSED_13)
     && EACH_SHIFTED(LAST(PASSED_13), PASSED_14)
     && EACH_SHIFTED(LAST(PASSED_14), PASSED_15) ? 1 : -1];

/* The terms of these degrees, as the register holds them. */
#define THIRD(...) THIRD_OF(__VA_ARGS__)
#define THIRD_OF(a, b, c, d, e, f, g, h) c
#define SIXTH(...) SIXTH_OF(__VA_ARGS__)
#define SIXTH_OF(a, b, c, d, e, f, g, h) f
#define HELD_42 THIRD(PASSED_1)
#define HELD_85 SIXTH(PASSED_6)
#define HELD_95 LAST(PASSED_7)
#define HELD_151 LAST(PASSED_14)
#define HELD_170 0x0BD02189u

/* A sum of terms squared is the sum of the terms of twice the degrees. */
#define SQUARED(value)                                                       \
    (DOUBLED(value, 0, TERMS_FROM(0)) ^ DOUBLED(value, 4, TERMS_FROM(8))     \
     ^ DOUBLED(value, 8, TERMS_FROM(16)) ^ DOUBLED(value, 12, TERMS_FROM(24)) \
     ^ DOUBLED(value, 16, PASSED_0) ^ DOUBLED(value, 20, PASSED_1)           \
     ^ DOUBLED(value, 24, PASSED_2) ^ DOUBLED(value, 28, PASSED_3))
#define TERMS_FROM(degree)                                                   \
    TERM(degree), TERM((degree) + 1), TERM((degree) + 2),                    \
    TERM((degree) + 3), TERM((degree) + 4), TERM((degree) + 5),              \
    TERM((degree) + 6), TERM((degree) + 7)
#define DOUBLED(value, from, ...) DOUBLED_OF(value, from, __VA_ARGS__)
#define DOUBLED_OF(value, from, a, b, c, d, e, f, g, h)                      \
    (((value) & TERM(from) ? a : 0) ^ ((value) & TERM((from) + 1) ? c : 0)   \
     ^ ((value) & TERM((from) + 2) ? e : 0)                                  \
     ^ ((value) & TERM((from) + 3) ? g : 0))

typedef char the_term_of_degree_170_is_that_of_85_squared
    [SQUARED(HELD_85) == HELD_170 ? 1 : -1];

/* Terms of degree 341, 151, 95, 42 and 0 leave nothing in the register. With
 * all degrees eightfold, that is squared three times, they do neither. So a
 * byte, together with the same byte 190, 246, 299 and 341 bytes later, brings
 * nothing to the checksum. */
typedef char such_five_terms_leave_nothing
    [(SHIFTED(SQUARED(HELD_170)) ^ HELD_151 ^ HELD_95 ^ HELD_42 ^ TERM(0)) == 0
         ? 1 : -1];

enum {
    LATER_1 = 341 - 151,
    LATER_2 = 341 - 95,
    LATER_3 = 341 - 42,
    LATER_4 = 341,
    /* Whole turns, and not below the farthest. */
    REST = 22 * TURN_SIZE,
    STRETCH = 4096,
    /* Where moving begins to take less time than the tables. */
    LEAST_MOVED = 36 * TURN_SIZE,
    START_SIZE = 4,
    START_BYTE = 0xFF
};

/* The bits of a byte act each for itself. */
#define OF_BYTE(byte, a, b, c, d, e, f, g, h)                                \
    (((byte) & 0x01 ? a : 0) ^ ((byte) & 0x02 ? b : 0)                       \
     ^ ((byte) & 0x04 ? c : 0) ^ ((byte) & 0x08 ? d : 0)                     \
     ^ ((byte) & 0x10 ? e : 0) ^ ((byte) & 0x20 ? f : 0)                     \
     ^ ((byte) & 0x40 ? g : 0) ^ ((byte) & 0x80 ? h : 0))
#define BYTES_4(byte, ...)                                                   \
    OF_BYTE(byte, __VA_ARGS__), OF_BYTE((byte) + 1, __VA_ARGS__),            \
    OF_BYTE((byte) + 2, __VA_ARGS__), OF_BYTE((byte) + 3, __VA_ARGS__)
#define BYTES_16(byte, ...)                                                  \
    BYTES_4(byte, __VA_ARGS__), BYTES_4((byte) + 4, __VA_ARGS__),            \
    BYTES_4((byte) + 8, __VA_ARGS__), BYTES_4((byte) + 12, __VA_ARGS__)
#define BYTES_64(byte, ...)                                                  \
    BYTES_16(byte, __VA_ARGS__), BYTES_16((byte) + 16, __VA_ARGS__),         \
    BYTES_16((byte) + 32, __VA_ARGS__), BYTES_16((byte) + 48, __VA_ARGS__)
#define EVERY_BYTE(...)                                                      \
    { BYTES_64(0, __VA_ARGS__), BYTES_64(64, __VA_ARGS__),                   \
      BYTES_64(128, __VA_ARGS__), BYTES_64(192, __VA_ARGS__) }

/* What the register becomes of each value of its high byte when that byte
 * has left the high end and so many others after it. */
static const uint32_t passed[TURN_SIZE][BYTE_VALUES] = {
    EVERY_BYTE(PASSED_0), EVERY_BYTE(PASSED_1), EVERY_BYTE(PASSED_2),
    EVERY_BYTE(PASSED_3), EVERY_BYTE(PASSED_4), EVERY_BYTE(PASSED_5),
    EVERY_BYTE(PASSED_6), EVERY_BYTE(PASSED_7), EVERY_BYTE(PASSED_8),
    EVERY_BYTE(PASSED_9), EVERY_BYTE(PASSED_10), EVERY_BYTE(PASSED_11),
    EVERY_BYTE(PASSED_12), EVERY_BYTE(PASSED_13), EVERY_BYTE(PASSED_14),
    EVERY_BYTE(PASSED_15)
};

/* Four bytes as they enter the register, the first one high. */
static uint32_t entering(const uint8_t *bytes)
{
    return (uint32_t)bytes[0] << 24 | (uint32_t)bytes[1] << 16
        | (uint32_t)bytes[2] << 8 | bytes[3];
}

/* Four bytes after which so many others pass. */
static uint32_t four_passed(uint32_t four, int others)
{
    return (passed[others + 3][four >> 24]
            ^ passed[others + 2][four >> 16 & LOW_BYTE])
        ^ (passed[others + 1][four >> 8 & LOW_BYTE]
           ^ passed[others][four & LOW_BYTE]);
}

/* The register after some bytes: sixteen a turn, then the rest one by one.
 * What the later twelve become does not wait for the register. */
static uint32_t entered(uint32_t value, const uint8_t *bytes, size_t length)
{
    for (; length >= TURN_SIZE; length -= TURN_SIZE) {
        uint32_t later = four_passed(entering(bytes + 4), 8)
            ^ four_passed(entering(bytes + 8), 4)
            ^ four_passed(entering(bytes + 12), 0);
        value = four_passed(value ^ entering(bytes), 12) ^ later;
        bytes += TURN_SIZE;
    }
    for (; length > 0; length--) {
        uint32_t high = value >> CHECKSUM_HIGH_BYTE_SHIFT;
        value = value << IND_BITS_PER_BYTE ^ passed[0][high ^ *bytes++];
    }
    return value;
}

/* Bytes with all that is moved to them. What is moved from the byte before
 * the first of them stands in moved[REST - 1], and so on backwards. */
static inline void moved_to(const uint8_t *bytes, size_t count,
                            const uint8_t *moved, uint8_t *with)
{
    for (size_t i = 0; i < count; i++)
        with[i] = (uint8_t)(bytes[i] ^ moved[REST - LATER_1 + i]
                            ^ moved[REST - LATER_2 + i]
                            ^ moved[REST - LATER_3 + i]
                            ^ moved[REST - LATER_4 + i]);
}

/* Nothing is moved from before the first byte; but the start value enters
 * with the first four, as if it were. */
static void start_moved(uint8_t moved[REST])
{
    for (uint32_t i = 0; i < REST; i++)
        moved[i] = 0;
    for (uint32_t i = 0; i < START_SIZE; i++)
        moved[REST - LATER_4 + i] = START_BYTE;
}

/* So many bytes, and as many more as make the last turn whole. */
static size_t whole_turns(size_t count)
{
    return (count + TURN_SIZE - 1) / TURN_SIZE * TURN_SIZE;
}

/* Each byte but the rest is moved: it is taken away, and added to the four
 * that come so many bytes later. The rest, from which nothing is moved, then
 * has the checksum of all. It begins anywhere in a turn; what was moved from
 * it to make the turn whole is blanked. */
static uint32_t moved_checksum(const uint8_t *bytes, size_t length)
{
    uint8_t moved[REST + STRETCH + REST - LATER_1];
    uint8_t rest[REST];
    size_t count = length - REST;
    start_moved(moved);
    for (; count > STRETCH; count -= STRETCH) {
        moved_to(bytes, STRETCH, moved, moved + REST);
        for (uint32_t i = 0; i < REST; i++)
            moved[i] = moved[STRETCH + i];
        bytes += STRETCH;
    }
    moved_to(bytes, whole_turns(count), moved, moved + REST);
    for (uint32_t i = 0; i < REST - LATER_1; i++)
        moved[REST + count + i] = 0;
    moved_to(bytes + count, REST, moved + count, rest);
    return entered(0, rest, REST);
}

uint32_t ind_checksum(const uint8_t *bytes, size_t length)
{
    return length < LEAST_MOVED ? entered(CHECKSUM_START, bytes, length)
                                : moved_checksum(bytes, length);
}
