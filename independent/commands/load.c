/* 02's ticket 6 on a command line: a file is split into pieces, and pieces are
 * loaded. */
#include "load.h"

#include <string.h>

#include "commands.h"
#include "generator/calls.h"
#include "generator/stored.h"
#include "number.h"

enum {
    LENGTH_SIZE = 4,
    /* The fewest bytes that give an identity: the fields up to the station. */
    LEAST_SPLIT = IND_STATION_PLACE + IND_OFFSET_SIZE,
    HEAD_MOST = IND_PIECE_NUMBERS * PUT_GROUPS_MOST
};

/* Reads at most so many bytes more, as they come; how many that were. */
static uint32_t read_more(FILE *input, sequence *to, uint32_t most)
{
    static uint8_t bytes[4096];
    uint32_t before = to->length;
    while (to->length - before < most) {
        uint32_t due = most - (to->length - before);
        size_t got = fread(bytes, 1, due < sizeof bytes ? due : sizeof bytes,
                           input);
        if (got == 0)
            break;
        add_bytes(to, bytes, (uint32_t)got);
    }
    return to->length - before;
}

/* ---- split */

static void print_piece(FILE *output, const uint8_t *file,
                        const uint32_t numbers[IND_PIECE_NUMBERS])
{
    uint8_t length[LENGTH_SIZE], head[HEAD_MOST];
    uint32_t head_size = 0, count = numbers[IND_COUNT_NUMBER];
    for (uint32_t i = 0; i < IND_PIECE_NUMBERS; i++)
        head_size += put_groups(head + head_size, numbers[i], 0);
    put_four(length, 0, head_size + count);
    fwrite(length, 1, sizeof length, output);
    fwrite(head, 1, head_size, output);
    fwrite(file + numbers[IND_START_NUMBER], 1, count, output);
}

void print_pieces(FILE *output, const uint8_t *file, uint32_t length,
                  uint32_t most)
{
    uint32_t numbers[IND_PIECE_NUMBERS], start = 0;
    identity_of(file, length, numbers);
    while (start < length) {
        uint32_t rest = length - start, count = rest < most ? rest : most;
        numbers[IND_START_NUMBER] = start;
        numbers[IND_COUNT_NUMBER] = count;
        print_piece(output, file, numbers);
        start += count;
    }
}

int command_split(int count, char **words)
{
    static sequence file;
    uint64_t most;
    FILE *input;
    int failed;
    if (count != 2 || !read_number(words[1], &most) || most == 0
        || most > UINT32_MAX) {
        fputs("independent: split takes FILE BYTES, at least 1 byte\n",
              stderr);
        return RUN_MISUSED;
    }
    input = fopen(words[0], "rb");
    if (input == NULL) {
        fprintf(stderr, "independent: %s cannot be read\n", words[0]);
        return RUN_BAD;
    }
    read_more(input, &file, UINT32_MAX / 2);
    failed = ferror(input);
    fclose(input);
    if (failed || file.length < LEAST_SPLIT) {
        fprintf(stderr,
                failed ? "independent: %s cannot be read\n"
                       : "independent: %s is too short for an identity\n",
                words[0]);
        return RUN_BAD;
    }
    print_pieces(stdout, file.bytes, file.length, (uint32_t)most);
    return RUN_WELL;
}

/* ---- load */

/* A transfer that is loaded: how many pieces came, and how many were taken. */
typedef struct {
    ind_transfer transfer;
    unsigned long pieces;
    unsigned long taken;
    uint8_t room[LOAD_ROOM_MOST];
} loaded;

/* Why a call is refused, by 01's and 02's words. */
static const char *why(uint32_t number)
{
    static const char *const words[IND_NUMBERS] = {
        [IND_LENGTH] = "length",
        [IND_CHECKSUM] = "checksum differs",
        [IND_FILE_TYPE] = "wrong file type",
        [IND_STRUCTURE_VERSION] = "structure version",
        [IND_FIELD] = "field outside its values",
        [IND_LAYOUT] = "layout",
        [IND_AGREEMENT] = "agreement",
        [IND_LINK_TARGET] = "link target wrong",
        [IND_LINK_RETURN] = "link not returned, or doubled",
        [IND_OUT_OF_RANGE] = "question out of range",
        [IND_ROOM] = "no room",
        [IND_IDENTITY] = "nothing opened, or another identity",
        [IND_ORDER] = "not the next byte due",
        [IND_PIECE] = "a bad number, no bytes, a wrong byte count or bytes "
                      "beyond the total"
    };
    return words[number] != NULL ? words[number] : "";
}

/* Hands on a piece, and says so where it is refused. */
static void hand_on(FILE *said, loaded *to, const sequence *piece)
{
    ind_answer answer =
        ind_load_piece(&to->transfer, piece->bytes, piece->length, to->room,
                       sizeof to->room);
    to->pieces++;
    if (answer.number == IND_ACCEPTED)
        to->taken++;
    else
        fprintf(said, "piece %lu refused %lu: %s\n", to->pieces,
                (unsigned long)answer.number, why(answer.number));
}

/* Hands on every piece. One that the input cuts off is handed on as it came,
 * and where it ends inside a length that is a piece of no bytes. */
static void hand_on_all(FILE *input, FILE *said, loaded *to)
{
    static sequence piece;
    uint8_t length[LENGTH_SIZE];
    size_t got;
    while ((got = fread(length, 1, sizeof length, input)) > 0) {
        piece.length = 0;
        if (got == sizeof length)
            read_more(input, &piece, ind_four(length, 0));
        hand_on(said, to, &piece);
    }
}

/* Finishes, and prints the file where that is accepted; then 1. */
static int finish(FILE *output, FILE *said, const loaded *to)
{
    ind_answer answer =
        ind_load_finish(&to->transfer, to->room, sizeof to->room);
    if (answer.number == IND_ACCEPTED) {
        fwrite(to->room, 1, to->transfer.identity[IND_TOTAL_NUMBER], output);
        return 1;
    }
    fprintf(said, "finishing refused %lu at %lu: %s\n",
            (unsigned long)answer.number, (unsigned long)answer.place,
            answer.number == IND_ORDER ? "nothing opened, or bytes still due"
                                       : why(answer.number));
    return 0;
}

int load_pieces(FILE *input, FILE *output, FILE *said,
                const uint64_t identity[IND_IDENTITY_NUMBERS])
{
    static loaded to;
    ind_answer opening;
    int accepted = 0;
    memset(&to, 0, sizeof to);
    opening = ind_load_open(&to.transfer, identity, sizeof to.room);
    if (opening.number != IND_ACCEPTED) {
        fprintf(said, "opening refused %lu: %s\n",
                (unsigned long)opening.number, why(opening.number));
    } else {
        hand_on_all(input, said, &to);
        accepted = finish(output, said, &to);
    }
    fprintf(said, "end: %lu of %lu pieces taken, %lu of %llu bytes, %s\n",
            to.taken, to.pieces, (unsigned long)to.transfer.due,
            (unsigned long long)identity[IND_TOTAL_NUMBER],
            accepted ? "file printed" : "nothing printed");
    return accepted;
}

int command_load(int count, char **words)
{
    uint64_t identity[IND_IDENTITY_NUMBERS];
    int read = 0, accepted;
    while (count == IND_IDENTITY_NUMBERS && read < count
           && read_number(words[read], &identity[read]))
        read++;
    if (read != IND_IDENTITY_NUMBERS) {
        fputs("independent: load takes STATION TYPE VERSION TOTAL TRAILER, "
              "numbers\n",
              stderr);
        return RUN_MISUSED;
    }
    accepted = load_pieces(stdin, stdout, stderr, identity);
    if (ferror(stdin)) {
        fputs("independent: standard input cannot be read\n", stderr);
        return RUN_BAD;
    }
    return accepted ? RUN_WELL : RUN_BAD;
}
