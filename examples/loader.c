/* An example of the C library: a host that loads a file in pieces of at most so many bytes. After half of the file the line breaks off; the host
 * keeps the state and the room, and the state says which byte is due. First the sender goes on with another file, that of the next data version,
 * from that byte on: this is the fault that the loader is made against. Then it goes on with the right one.
 *
 *     tools/library && target/libyard/loader examples/1.2 examples/1.2-next 100 */
#include <stdint.h>
#include <stdio.h>
#include <stdlib.h>
#include <string.h>

#include "station_file.h"
#include "yard.h"

enum {
    /* How many numbers stand before the bytes of a piece, and how many bytes each has at most. */
    NUMBERS = 7,
    NUMBER_MOST = 5,
    /* The fewest bytes of a file. */
    FILE_LEAST = 68
};

/* What a file is known by. */
typedef struct {
    uint32_t station, type, version, total, trailer;
} identity;

/* A host keeps these two between calls, and over a night if it has to. */
static uint8_t state[YARD_LOAD_STATE_SIZE];
static uint8_t room[ROOM];

static identity identity_of(const station_file *file)
{
    const uint8_t *bytes = file->bytes;
    identity is;
    is.type = bytes[0];
    is.version = yard_word(bytes + 3, 0);
    is.station = yard_word(bytes + 5, 0);
    is.total = (uint32_t)file->length;
    is.trailer = yard_unsigned(bytes + file->length - YARD_VALUE_SIZE, 0);
    return is;
}

/* Writes a number in groups of seven bits, low group first; how many bytes that are. */
static size_t put_number(uint8_t *at, uint32_t number)
{
    size_t length = 0;
    for (; number >= 0x80; number >>= 7)
        at[length++] = (uint8_t)(0x80 | (number & 0x7F));
    at[length++] = (uint8_t)number;
    return length;
}

/* Makes a piece of so many bytes of a file from a start on; its length. */
static size_t make_piece(uint8_t *piece, const station_file *file, uint32_t start, uint32_t count)
{
    identity is = identity_of(file);
    uint32_t numbers[NUMBERS] = {is.station, is.type, is.version, is.total, is.trailer, start, count};
    size_t length = 0;
    for (int i = 0; i < NUMBERS; i++)
        length += put_number(piece + length, numbers[i]);
    memcpy(piece + length, file->bytes + start, count);
    return length + count;
}

static uint32_t due(void)
{
    return yard_unsigned(state, YARD_LOAD_DUE);
}

/* Sends pieces of a file from the byte that is due up to another, and says how that ended: a refused piece ends it. */
static void send_from_due(const char *name, const station_file *file, uint32_t until, uint32_t most)
{
    static uint8_t piece[NUMBERS * NUMBER_MOST + ROOM];
    uint32_t from = due();
    while (due() < until) {
        uint32_t rest = until - due(), count = rest < most ? rest : most;
        size_t length = make_piece(piece, file, due(), count);
        uint64_t answer = yard_load_piece(state, sizeof state, piece, length, room, sizeof room);
        if (YARD_NUMBER(answer) != YARD_ANSWERED) {
            printf("%s, byte %lu: refused by %u, and nothing changed\n", name, (unsigned long)due(), YARD_NUMBER(answer));
            return;
        }
    }
    printf("%s, bytes %lu to %lu: taken\n", name, (unsigned long)from, (unsigned long)due() - 1);
}

static void finish(void)
{
    uint64_t answer = yard_load_finish(state, sizeof state, room, sizeof room);
    printf("finishing: number %u at place %lu\n", YARD_NUMBER(answer), (unsigned long)YARD_PLACE(answer));
}

int main(int count, char **words)
{
    static station_file file, next;
    unsigned long most = count == 4 ? strtoul(words[3], NULL, 10) : 0;
    identity is;
    uint64_t answer;
    if (most == 0 || most > ROOM) {
        fputs("usage: loader FILE NEXT BYTES\n", stderr);
        return 2;
    }
    if (!read_file(words[1], &file) || !read_file(words[2], &next))
        return 2;
    if (file.length < FILE_LEAST || next.length < FILE_LEAST) {
        fputs("loader: a file has at least 68 bytes\n", stderr);
        return 2;
    }
    is = identity_of(&file);
    answer = yard_load_open(state, sizeof state, is.station, is.type, is.version, is.total, is.trailer, room, sizeof room);
    printf("opening station %lu, type %lu, version %lu, %lu bytes: number %u\n", (unsigned long)is.station, (unsigned long)is.type,
           (unsigned long)is.version, (unsigned long)is.total, YARD_NUMBER(answer));
    if (YARD_NUMBER(answer) != YARD_ANSWERED)
        return 1;
    send_from_due("this version", &file, is.total / 2, (uint32_t)most);
    finish();
    send_from_due("the next version", &next, (uint32_t)next.length, (uint32_t)most);
    send_from_due("this version", &file, is.total, (uint32_t)most);
    finish();
    printf("the file %s\n", memcmp(room, file.bytes, file.length) == 0 ? "is the one that was sent" : "differs");
    return 0;
}
