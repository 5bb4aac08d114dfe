/* Reading and writing the cases of a batch. */
#include "batch.h"

#include "core/bytes.h"

enum {
    NUMBER_SIZE = 4,
    NUMBERS_SIZE = NUMBERS * NUMBER_SIZE,
    HEAD_SIZE = NUMBERS_SIZE + FILES * NUMBER_SIZE
};

static int pass_over(FILE *input, uint32_t length)
{
    static uint8_t piece[4096];
    while (length > 0) {
        uint32_t due = length < sizeof piece ? length : sizeof piece;
        if (fread(piece, 1, due, input) != due)
            return 0;
        length -= due;
    }
    return 1;
}

static int read_bytes(FILE *input, uint8_t *bytes, uint32_t length,
                      uint32_t most)
{
    if (length > most)
        return pass_over(input, length);
    return fread(bytes, 1, length, input) == length;
}

/* Reads so many bytes of calls, as they come: the length may be any. */
static int read_calls(FILE *input, sequence *calls, uint32_t length)
{
    static uint8_t piece[4096];
    calls->length = 0;
    while (length > 0) {
        uint32_t due = length < sizeof piece ? length : sizeof piece;
        if (fread(piece, 1, due, input) != due)
            return 0;
        add_bytes(calls, piece, due);
        length -= due;
    }
    return 1;
}

/* The first string of bytes: a file or, of a case of load, calls. */
static int read_first(FILE *input, asked *ask)
{
    uint32_t length = ask->files[0].length;
    if (ask->question != ASK_LOAD)
        return read_bytes(input, ask->files[0].bytes, length,
                          IND_LARGEST_FILE);
    ask->files[0].length = 0;
    return read_calls(input, &ask->calls, length);
}

/* How many lies stand behind the second file. */
static uint32_t lies_of(const asked *ask)
{
    return ask->question == ASK_AHEAD ? ask->numbers[AHEAD_LIES] : 0;
}

/* The numbers, and the lengths of the two byte strings. */
static void take_head(const uint8_t *head, asked *ask)
{
    for (uint32_t i = 0; i < NUMBERS; i++)
        ask->numbers[i] = ind_four(head, NUMBER_SIZE * i);
    for (uint32_t i = 0; i < FILES; i++)
        ask->files[i].length = ind_four(head, NUMBERS_SIZE + NUMBER_SIZE * i);
}

/* Whether a case of load can be answered. */
static reading loadable(const asked *ask)
{
    if (ask->numbers[LOAD_ROOM] > LOAD_ROOM_MOST)
        return READ_LARGE_ROOM;
    return are_calls(ask->calls.bytes, ask->calls.length) ? READ_WHOLE
                                                          : READ_BAD_CALLS;
}

reading read_case(FILE *input, asked *ask)
{
    uint8_t head[HEAD_SIZE];
    int first = getc(input);
    if (first == EOF)
        return READ_NOTHING_MORE;
    if (!is_question((uint32_t)first))
        return READ_UNKNOWN_QUESTION;
    ask->question = (uint32_t)first;
    if (fread(head, 1, sizeof head, input) != sizeof head)
        return READ_CUT_OFF;
    take_head(head, ask);
    if (lies_of(ask) > ask->files[1].length)
        return READ_TOO_MANY_LIES;
    ask->files[1].length -= lies_of(ask);
    if (!read_first(input, ask)
        || !read_bytes(input, ask->files[1].bytes, ask->files[1].length,
                       IND_LARGEST_FILE)
        || !read_bytes(input, ask->lies, lies_of(ask), LIES_ROOM))
        return READ_CUT_OFF;
    return ask->question == ASK_LOAD ? loadable(ask) : READ_WHOLE;
}

static void write_number(FILE *output, uint32_t number)
{
    for (int i = 0; i < NUMBER_SIZE; i++)
        putc((int)(number >> IND_BITS_PER_BYTE * i & 0xFF), output);
}

void write_case(FILE *output, const asked *ask)
{
    posed given = pose(ask);
    putc((int)ask->question, output);
    for (int i = 0; i < NUMBERS; i++)
        write_number(output, ask->numbers[i]);
    write_number(output, given.length[0]);
    write_number(output, given.length[1] + lies_of(ask));
    for (int i = 0; i < FILES; i++)
        if (given.length[i] > 0)
            fwrite(given.bytes[i], 1, given.length[i], output);
    fwrite(ask->lies, 1, lies_of(ask), output);
}
