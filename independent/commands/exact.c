/* Generated cases answered, and generated plans compared, from blocks that
 * hold a file's bytes and nothing more, so that a run under a memory checker
 * sees every read outside; lent words are looked at too. */
#include <stdlib.h>
#include <string.h>

#include "answer.h"
#include "commands.h"
#include "generation.h"
#include "generator/plans.h"
#include "plan.h"

enum {
    UNTOUCHED = 0xA55A,
    UNTOUCHED_BYTE = 0xA5
};

static int alike(ind_answer one, ind_answer other)
{
    return one.number == other.number && one.place == other.place
        && one.file == other.file;
}

/* A block of so many bytes and no more. */
static void *block(size_t size)
{
    void *bytes = malloc(size == 0 ? 1 : size);
    if (bytes == NULL) {
        fputs("independent: no memory for a block\n", stderr);
        exit(RUN_BAD);
    }
    return bytes;
}

/* A block of exactly the file's bytes; an over-long file has none. */
static uint8_t *block_of(const stored *file)
{
    uint32_t size = file->length > IND_LARGEST_FILE ? 0 : file->length;
    uint8_t *bytes = block(size);
    memcpy(bytes, file->bytes, size);
    return bytes;
}

/* So many words and no more, none of them written. */
static uint16_t *untouched_words(uint32_t room)
{
    uint16_t *words = block(room * sizeof *words);
    for (uint32_t i = 0; i < room; i++)
        words[i] = UNTOUCHED;
    return words;
}

/* A refusal touches no word, an answer none after its list. */
static int words_kept(const ind_routes *found, const uint16_t *words,
                      uint32_t room)
{
    uint32_t kept = found->words;
    while (kept < room && words[kept] == UNTOUCHED)
        kept++;
    return kept == room;
}

static int counts_alike(const ind_routes *one, const ind_routes *other)
{
    return alike(one->answer, other->answer) && one->routes == other->routes
        && one->words == other->words && one->walks == other->walks;
}

/* A listing into exactly the room lent, by each lister: both keep the words
 * that they have to, and leave the same. */
static int listing_right(const posed *ask)
{
    static ind_walks walks;
    uint32_t room = ask->numbers[3];
    uint16_t *words = untouched_words(room), *others = untouched_words(room);
    ind_routes found = ind_routes_from(
        ask->bytes[0], ask->length[0], ask->numbers[0], ask->numbers[1],
        ask->numbers[2], words, room, &walks);
    ind_routes flat = ind_routes_flat(
        ask->bytes[0], ask->length[0], ask->numbers[0], ask->numbers[1],
        ask->numbers[2], others, room);
    int right = words_kept(&found, words, room) && counts_alike(&found, &flat)
        && memcmp(words, others, room * sizeof *words) == 0;
    free(words);
    free(others);
    return right;
}

/* A refusal touches no byte, an answer none after its objects. */
static int bytes_kept(const ind_ahead *found, const uint8_t *bytes,
                      uint32_t room)
{
    uint32_t kept = IND_OFFSET_SIZE * found->objects;
    while (kept < room && bytes[kept] == UNTOUCHED_BYTE)
        kept++;
    return kept == room;
}

/* The objects ahead into exactly the room lent: the same as elsewhere, and the
 * other bytes are kept. */
static int ahead_right(const posed *ask)
{
    const uint32_t *n = ask->numbers;
    uint32_t room = n[AHEAD_BYTES];
    uint8_t *bytes = block(room), due[IND_AHEAD_ROOM];
    ind_ahead elsewhere = ask_ahead(ask, due), found;
    int right;
    memset(bytes, UNTOUCHED_BYTE, room);
    found = ind_ahead_of(ask->bytes[0], ask->length[0], ask->bytes[1],
                         ask->length[1], n[AHEAD_OFFSET], n[AHEAD_LINK],
                         ask->lies, n[AHEAD_LIES], bytes, room);
    right = alike(found.answer, elsewhere.answer)
        && found.stop == elsewhere.stop && found.objects == elsewhere.objects
        && bytes_kept(&found, bytes, room)
        && memcmp(bytes, due, IND_OFFSET_SIZE * found.objects) == 0;
    free(bytes);
    return right;
}

/* Whether a call left the room as it has to: only an accepted piece writes, and
 * just its bytes, which are its last ones, from the next byte due on. */
static int room_right(const load_call *call, const ind_transfer *before,
                      const ind_transfer *after, ind_answer answer,
                      const uint8_t *old, const uint8_t *left, uint32_t lent)
{
    uint32_t from = 0, count = 0;
    if (call->kind == CALL_PIECE && answer.number == IND_ACCEPTED) {
        from = before->due;
        count = after->due - before->due;
    }
    return from + count <= lent && count <= call->length
        && memcmp(left, old, from) == 0
        && memcmp(left + from, call->bytes + call->length - count, count)
        == 0
        && memcmp(left + from + count, old + from + count,
                  lent - from - count) == 0;
}

/* A refused call, and finishing, leave the transfer as it was. */
static int transfer_right(const load_call *call, const ind_transfer *before,
                          const ind_transfer *after, ind_answer answer)
{
    if (call->kind != CALL_FINISH && answer.number == IND_ACCEPTED)
        return after->opened;
    return memcmp(before, after, sizeof *after) == 0;
}

/* A call with its bytes, and the room that is lent, in blocks: the answer is
 * that of the same call elsewhere, and so is what it leaves. */
static int call_right(loading *of, const load_call *call)
{
    uint32_t lent = lent_of(call, of->room_size);
    ind_transfer before = of->transfer, after = before;
    uint8_t *bytes = block(call->length), *room = block(lent);
    uint8_t *old = block(lent);
    load_call exact = { call->kind, call->lent, bytes, call->length };
    ind_answer answer, elsewhere;
    int right;
    memcpy(bytes, call->bytes, call->length);
    memcpy(room, of->room, lent);
    memcpy(old, of->room, lent);
    answer = answer_call(&after, &exact, room, lent);
    elsewhere = make_call(of, call);
    right = alike(answer, elsewhere)
        && memcmp(&after, &of->transfer, sizeof after) == 0
        && memcmp(room, of->room, lent) == 0
        && room_right(call, &before, &after, answer, old, room, lent)
        && transfer_right(call, &before, &after, answer);
    free(bytes);
    free(room);
    free(old);
    return right;
}

/* Every call of a case of load, each from where the one before it left off. */
static int calls_right(const posed *ask)
{
    static loading of;
    load_call call;
    begin_loading(&of, ask);
    while (next_call(&of, &call))
        if (!call_right(&of, &call))
            return 0;
    return 1;
}

/* Lies of a case of ahead, in a block of their own; of another case none. */
static uint8_t *block_of_lies(const asked *ask)
{
    uint32_t count =
        ask->question == ASK_AHEAD ? ask->numbers[AHEAD_LIES] : 0;
    uint8_t *lies = block(count);
    memcpy(lies, ask->lies, count);
    return lies;
}

/* What was left beside the answer, of the questions that leave something. */
static int left_right(const posed *ask)
{
    if (asks_routes(ask->question))
        return listing_right(ask);
    if (ask->question == ASK_LOAD)
        return calls_right(ask);
    return ask->question != ASK_AHEAD || ahead_right(ask);
}

/* The bytes of a case's first or second string: calls are all there, however
 * many. */
static uint8_t *block_of_string(const asked *ask, int which)
{
    uint8_t *calls;
    if (ask->question != ASK_LOAD || which != 0)
        return block_of(&ask->files[which]);
    calls = block(ask->calls.length);
    memcpy(calls, ask->calls.bytes, ask->calls.length);
    return calls;
}

static int case_right(const asked *ask)
{
    posed roomy = pose(ask);
    posed exact = roomy;
    uint8_t *blocks[FILES], *lies = block_of_lies(ask);
    int right;
    for (int i = 0; i < FILES; i++) {
        blocks[i] = block_of_string(ask, i);
        exact.bytes[i] = blocks[i];
    }
    exact.lies = lies;
    right = alike(answer_case(&roomy), answer_case(&exact))
        && left_right(&exact);
    for (int i = 0; i < FILES; i++)
        free(blocks[i]);
    free(lies);
    return right;
}

int command_exact(int count, char **words)
{
    static asked ask;
    unsigned long passed = 0, failed = 0;
    generation run;
    if (!read_generation(count, words, &run))
        return RUN_MISUSED;
    for (uint64_t i = run.first; i < run.end; i++) {
        build_case(&run, i, &ask);
        if (case_right(&ask))
            passed++;
        else
            failed++;
    }
    printf("%lu passed, %lu failed\n", passed, failed);
    return failed == 0 ? RUN_WELL : RUN_BAD;
}

/* Prints what yardplan prints and says of a case. */
static void print_exact_plan(const plan_case *of)
{
    uint8_t *file = block_of(&of->file);
    uint8_t *text = block(of->plan.length);
    planned_yard given = { file,       of->file.length, text, of->plan.length,
                           of->limit,  of->budget,      of->room,
                           of->flat };
    memcpy(text, of->plan.bytes, of->plan.length);
    print_plan(stdout, stdout, &given);
    free(file);
    free(text);
}

int command_plan_exact(int count, char **words)
{
    static plan_case made;
    generation run;
    if (!read_generation(count, words, &run))
        return RUN_MISUSED;
    for (uint64_t i = run.first; i < run.end; i++) {
        build_plan_case(run.seed + i, &made);
        print_exact_plan(&made);
    }
    return RUN_WELL;
}
