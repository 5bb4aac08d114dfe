/* The guarded run: every function of the library is called with generated,
 * damaged, random and bit-flipped files. Every lent buffer lies against an
 * unreadable page, before it and after it in turn; one of no bytes is a null
 * pointer too. Each answer is compared with the independent core, a file has
 * to keep its bytes, and an output has to hold the answer and after it its
 * old bytes; on a refusal it keeps all of them. Routes are always asked of
 * both functions that list them, and the two have to leave the same bytes; a
 * coordinate and a point are always asked in degrees too, and first at every
 * whole degree. What lies ahead is asked with four lent buffers: two files,
 * the lies, which have to keep their bytes too, and the objects. The calls of
 * the loader stand in guard_load.c. */
#define _XOPEN_SOURCE 700
#include <signal.h>
#include <stdio.h>
#include <string.h>
#include <unistd.h>

#include "commands/commands.h"
#include "commands/generation.h"
#include "core/core.h"
#include "expected.h"
#include "generator/damage.h"
#include "generator/random.h"
#include "generator/whole_degrees.h"
#include "guard.h"

enum {
    /* Outputs are lent with up to so many bytes more than are needed. */
    SPARE_LARGEST = 8,
    OUT_ROOM = VALUES_ROOM + SPARE_LARGEST,
    LENT_WORDS_ROOM = WORDS_ROOM + 1,
    /* The functions that list routes. */
    LISTERS = 2,
    /* The most questions that have the same cases. */
    QUESTIONS_ALIKE = 2,
    /* The exit status after a signal. */
    RUN_SIGNALLED = 3
};

/* What stands in an output before a call. */
#define OLD_BYTE(place) ((uint8_t)(0xA5 ^ (place)*7))

/* A call: the case, the length of its outputs, of which the objects ahead have
 * the place of words, and a number that is too large for 32 bits, if it has
 * one. */
typedef struct {
    posed ask;
    uint32_t out_length;
    uint32_t words_length;
    uint64_t above[NUMBERS];
} call;

static room files[FILES], lies_room, out_room, words_room;

/* ---- signals: a signal is a defect; say in which call, and stop */

enum {
    /* The checksum, which is no question, and no call at all. */
    CHECKSUM = 0,
    NO_CALL = -1
};

/* The case under way, one of a seed or one of the whole degrees; the call, of
 * the loader its kind, and how its buffers are lent. */
static const char *volatile cases_now = "case";
static volatile uint64_t case_now;
static volatile sig_atomic_t question_now = NO_CALL, kind_now, way_now;

void begin_call(uint32_t question, uint32_t kind, way lent)
{
    kind_now = (sig_atomic_t)kind;
    way_now = (sig_atomic_t)lent;
    question_now = (sig_atomic_t)question;
}

void end_call(void)
{
    question_now = NO_CALL;
}

/* What is said. A handler may neither format nor allocate. */
static char said[200];
static size_t said_size;

static void say(const char *text)
{
    while (*text != '\0' && said_size < sizeof said)
        said[said_size++] = *text++;
}

static void say_number(uint64_t number)
{
    char digits[21];
    size_t first = sizeof digits - 1;
    digits[first] = '\0';
    do {
        digits[--first] = (char)('0' + number % 10);
        number /= 10;
    } while (number > 0);
    say(digits + first);
}

static const char *signal_name(int number)
{
    switch (number) {
    case SIGSEGV: return "SIGSEGV";
    case SIGBUS: return "SIGBUS";
    case SIGILL: return "SIGILL";
    case SIGFPE: return "SIGFPE";
    case SIGTRAP: return "SIGTRAP";
    default: return "SIGABRT";
    }
}

static const char *way_name(int lent)
{
    switch (lent) {
    case PAGE_BEFORE: return "the unreadable page before each buffer";
    case PAGE_AFTER: return "the unreadable page after each buffer";
    default: return "a null pointer for each empty buffer";
    }
}

/* The function that answers a question: its name has an underscore where the
 * question's has a hyphen, and that of routes2 says how it lists. */
static void say_function(uint32_t asked_for)
{
    size_t from = said_size;
    if (asked_for == ASK_ROUTES2)
        say("routes_flat");
    else if (asked_for == ASK_LOAD)
        say(call_name((uint32_t)kind_now));
    else
        say(asked_for == CHECKSUM ? "checksum" : question_name(asked_for));
    for (size_t i = from; i < said_size; i++)
        if (said[i] == '-')
            said[i] = '_';
}

/* Which call is under way. */
static void say_call(void)
{
    if (question_now == NO_CALL) {
        say(" outside the library");
        return;
    }
    say(" in yard_");
    say_function((uint32_t)question_now);
    say(", with ");
    say(way_name((int)way_now));
}

static void caught(int number)
{
    ssize_t written;
    say("signal ");
    say_number((uint64_t)number);
    say(" (");
    say(signal_name(number));
    say(") in ");
    say(cases_now);
    say(" ");
    say_number(case_now);
    say(",");
    say_call();
    say("\n");
    written = write(STDOUT_FILENO, said, said_size);
    (void)written;
    _exit(RUN_SIGNALLED);
}

/* The handler has a stack of its own, for a library that overflows this
 * one. */
static void catch_signals(void)
{
    static const int caught_ones[] = { SIGSEGV, SIGBUS, SIGILL, SIGFPE,
                                       SIGTRAP, SIGABRT };
    static uint8_t bytes[65536];
    stack_t own = { .ss_sp = bytes, .ss_size = sizeof bytes };
    struct sigaction act = { .sa_handler = caught, .sa_flags = SA_ONSTACK };
    sigemptyset(&act.sa_mask);
    sigaltstack(&own, NULL);
    for (size_t i = 0; i < sizeof caught_ones / sizeof *caught_ones; i++)
        sigaction(caught_ones[i], &act, NULL);
}

/* ---- calls */

static void fill(uint8_t *bytes, uint32_t length)
{
    for (uint32_t i = 0; i < length; i++)
        bytes[i] = OLD_BYTE(i);
}

int alike(const uint8_t *bytes, const uint8_t *others, uint32_t length)
{
    return length == 0 || memcmp(bytes, others, length) == 0;
}

void copy(uint8_t *to, const uint8_t *bytes, uint32_t length)
{
    if (length > 0)
        memcpy(to, bytes, length);
}

/* How many bytes differ from the new ones in front and the old ones after
 * them. */
static uint64_t changed_in(const uint8_t *bytes, uint32_t length,
                           const uint8_t *front, uint32_t front_size)
{
    uint64_t changed = !alike(bytes, front, front_size);
    for (uint32_t i = front_size; i < length; i++)
        changed += bytes[i] != OLD_BYTE(i);
    return changed;
}

/* How many lies a call lends. */
static uint32_t lies_of(const call *of)
{
    return of->ask.question == ASK_AHEAD ? of->ask.numbers[AHEAD_LIES] : 0;
}

/* The question, asked of the library. */
static uint64_t ask_library(const call *of, const uint8_t *const file[FILES],
                            const uint8_t *lies, uint8_t *out, uint8_t *words)
{
    const uint32_t *length = of->ask.length;
    const uint64_t *n = of->above;
    switch (of->ask.question) {
    case ASK_X1: return yard_x1(file[0], length[0]);
    case ASK_X1_VERSION_1: return yard_x1_version_1(file[0], length[0]);
    case ASK_X2: return yard_x2(file[0], length[0]);
    case ASK_PAIR:
        return yard_pair(file[0], length[0], file[1], length[1]);
    case ASK_TRACK:
        return yard_track(file[0], length[0], n[0], out, of->out_length);
    case ASK_POINT:
        return yard_point(file[0], length[0], n[0], n[1], out,
                          of->out_length);
    case ASK_COORDINATE:
        return yard_coordinate(file[0], length[0], n[0], n[1], out,
                               of->out_length);
    case ASK_DEGREES:
        return yard_degrees(file[0], length[0], n[0], n[1], out,
                            of->out_length);
    case ASK_POINT_DEGREES:
        return yard_point_degrees(file[0], length[0], n[0], n[1], out,
                                  of->out_length);
    case ASK_RECORD:
        return yard_record(file[0], length[0], n[0], out, of->out_length);
    case ASK_ROUTES:
        return yard_routes(file[0], length[0], n[0], n[1], n[2], out,
                           of->out_length, words, of->words_length);
    case ASK_ROUTES2:
        return yard_routes_flat(file[0], length[0], n[0], n[1], n[2], out,
                                of->out_length, words, of->words_length);
    case ASK_AHEAD:
        return yard_ahead(file[0], length[0], file[1], length[1],
                          n[AHEAD_OFFSET], n[AHEAD_LINK], lies, lies_of(of),
                          words, of->words_length);
    case ASK_HEADER1:
        return yard_header1(file[0], length[0], out, of->out_length);
    default:
        return yard_header2(file[0], length[0], out, of->out_length);
    }
}

static void count_answer(figures *seen, uint32_t asked_for, uint64_t answer)
{
    seen->calls++;
    seen->answers[asked_for][YARD_NUMBER(answer) % IND_NUMBERS]++;
}

/* Whether no defect was told before: the first alone is. */
static int is_first_defect(void)
{
    static int told;
    int first = !told;
    told = 1;
    return first;
}

int tell_defect(const char *what)
{
    if (!is_first_defect())
        return 0;
    printf("first defect: %s %llu, %s, with %s\n", cases_now,
           (unsigned long long)case_now, what, way_name((int)way_now));
    return 1;
}

/* Only what lies ahead has a stop. */
void tell_answer(const char *side, uint64_t answer)
{
    printf("%-11s %u at %lu, file %u, stop %u, %u objects\n", side,
           YARD_NUMBER(answer), (unsigned long)YARD_PLACE(answer),
           YARD_FILE(answer), YARD_STOP(answer), YARD_OBJECTS(answer));
}

static void tell_difference(const call *of, uint64_t got, const expected *due)
{
    if (!is_first_defect())
        return;
    printf("first defect: %s %llu, question %s, output of %lu bytes, words of "
           "%lu, with %s\n",
           cases_now, (unsigned long long)case_now,
           question_name(of->ask.question), (unsigned long)of->out_length,
           (unsigned long)of->words_length, way_name((int)way_now));
    tell_answer("library", got);
    tell_answer("independent", due->answer);
    fflush(stdout);
}

/* The files that a question is about. */
static int files_of(uint32_t asked_for)
{
    return asks_pair(asked_for) ? 2 : 1;
}

/* Whether a question has words for an output. */
static int has_words(uint32_t asked_for)
{
    return asks_routes(asked_for) || asked_for == ASK_AHEAD;
}

/* Some buffer that the call lends has no bytes. */
static int lends_nothing(const call *of)
{
    uint32_t question = of->ask.question;
    for (int i = 0; i < files_of(question); i++)
        if (of->ask.length[i] == 0)
            return 1;
    return (values_size_of(question) > 0 && of->out_length == 0)
        || (has_words(question) && of->words_length == 0)
        || (question == ASK_AHEAD && lies_of(of) == 0);
}

/* One call with every buffer lent in one way; what is returned. */
static uint64_t one_call(figures *seen, const call *of, const expected *due,
                         way lent)
{
    const uint8_t *file[FILES];
    uint8_t *out = lend(out_room, of->out_length, lent);
    uint8_t *words = lend(words_room, of->words_length, lent);
    uint8_t *lies = lend(lies_room, lies_of(of), lent);
    uint64_t got, changed;
    for (int i = 0; i < FILES; i++) {
        uint8_t *bytes = lend(files[i], of->ask.length[i], lent);
        copy(bytes, of->ask.bytes[i], of->ask.length[i]);
        file[i] = bytes;
    }
    copy(lies, of->ask.lies, lies_of(of));
    fill(out, of->out_length);
    fill(words, of->words_length);
    begin_call(of->ask.question, 0, lent);
    got = ask_library(of, file, lies, out, words);
    end_call();
    count_answer(seen, of->ask.question, got);
    seen->with_null += lent == NULL_FOR_NOTHING;
    changed = changed_in(out, of->out_length, due->values, due->values_size)
        + changed_in(words, of->words_length, due->words, due->words_size)
        + !alike(lies, of->ask.lies, lies_of(of));
    for (int i = 0; i < FILES; i++)
        changed += !alike(file[i], of->ask.bytes[i], of->ask.length[i]);
    seen->differ += got != due->answer;
    seen->changed += changed;
    if (got != due->answer || changed > 0)
        tell_difference(of, got, due);
    return got;
}

static void tell_unlike(const call *of)
{
    if (!is_first_defect())
        return;
    printf("first defect: case %llu, the two functions that list routes leave "
           "different bytes, output of %lu bytes, words of %lu, with %s\n",
           (unsigned long long)case_now, (unsigned long)of->out_length,
           (unsigned long)of->words_length, way_name((int)way_now));
    fflush(stdout);
}

/* A listing by both functions, with every buffer lent in one way: the second
 * has to return what the first did, and to leave every byte of both outputs
 * as the first left it. */
static void both_calls(figures *seen, const call of[LISTERS],
                       const expected due[LISTERS], way lent)
{
    static uint8_t out_left[OUT_ROOM], words_left[LENT_WORDS_ROOM];
    const uint8_t *out = lend(out_room, of->out_length, lent);
    const uint8_t *words = lend(words_room, of->words_length, lent);
    uint64_t got = one_call(seen, &of[0], &due[0], lent);
    int like;
    copy(out_left, out, of->out_length);
    copy(words_left, words, of->words_length);
    like = one_call(seen, &of[1], &due[1], lent) == got
        && alike(out_left, out, of->out_length)
        && alike(words_left, words, of->words_length);
    seen->differ += !like;
    if (!like)
        tell_unlike(of);
}

/* An output that is too short for the values is refused last. */
static void shorten(const call *of, expected *due)
{
    if (YARD_NUMBER(due->answer) != YARD_ANSWERED
        || of->out_length >= values_size_of(of->ask.question))
        return;
    due->answer = YARD_ROOM;
    due->values_size = due->words_size = 0;
}

/* The length of an output for so many bytes of values: mostly enough. */
static uint32_t some_length(source *from, uint32_t needed)
{
    if (needed > 0 && once_in(from, 6))
        return draw(from, needed);
    return needed + draw(from, SPARE_LARGEST);
}

/* Now and then a number that no 32 bits hold; the core is asked with the
 * largest that they do, which names nothing either. */
static void raise_a_number(source *from, call *of)
{
    int last = asks_routes(of->ask.question) ? 3 : 2;
    uint32_t which = draw(from, (uint32_t)last);
    if (!once_in(from, 16))
        return;
    of->above[which] += (uint64_t)1 << (32 + draw(from, 32));
    of->ask.numbers[which] = 0xFFFFFFFF;
}

/* The answer that is due to a call, with outputs as long as they are. */
static void expect_call(const call *of, expected *due)
{
    expect(&of->ask, due);
    shorten(of, due);
}

/* A listing by both functions, with its buffers lent in each way. */
static void list_each_way(figures *seen, const call *of)
{
    static const uint32_t listers[LISTERS] = { ASK_ROUTES, ASK_ROUTES2 };
    static expected due[LISTERS];
    int ways = lends_nothing(of) ? WAYS : NULL_FOR_NOTHING;
    call both[LISTERS];
    for (int i = 0; i < LISTERS; i++) {
        both[i] = *of;
        both[i].ask.question = listers[i];
        expect_call(&both[i], &due[i]);
    }
    for (int lent = PAGE_BEFORE; lent < ways; lent++)
        both_calls(seen, both, due, (way)lent);
}

/* The call with its buffers lent in each way. */
static void call_each_way(figures *seen, const call *of)
{
    static expected due;
    if (asks_routes(of->ask.question)) {
        list_each_way(seen, of);
        return;
    }
    expect_call(of, &due);
    one_call(seen, of, &due, PAGE_BEFORE);
    one_call(seen, of, &due, PAGE_AFTER);
    if (lends_nothing(of))
        one_call(seen, of, &due, NULL_FOR_NOTHING);
}

/* The call that asks a question of a case, with outputs of some length. */
static call call_of(source *from, const asked *ask, uint32_t question)
{
    call of;
    of.ask = pose(ask);
    of.ask.question = question;
    of.out_length = some_length(from, values_size_of(question));
    of.words_length = 0;
    if (asks_routes(question))
        of.words_length = 2 * ask->numbers[3] + draw(from, 2);
    if (question == ASK_AHEAD)
        of.words_length = ask->numbers[AHEAD_BYTES];
    for (int i = 0; i < NUMBERS; i++)
        of.above[i] = ask->numbers[i];
    raise_a_number(from, &of);
    return of;
}

/* Some or all of the buffers that the call lends have no bytes. */
static void lend_nothing(source *from, call *of)
{
    uint32_t question = of->ask.question;
    do {
        for (int i = 0; i < files_of(question); i++)
            if (once_in(from, 3))
                of->ask.length[i] = 0;
        if (once_in(from, 2))
            of->out_length = 0;
        if (has_words(question) && once_in(from, 2)) {
            of->words_length = 0;
            of->ask.numbers[3] = 0;
        }
        if (question == ASK_AHEAD && once_in(from, 2))
            of->ask.numbers[AHEAD_LIES] = 0;
    } while (!lends_nothing(of));
}

static void tell_checksum(uint32_t length, uint32_t got, uint32_t due)
{
    if (!is_first_defect())
        return;
    printf("first defect: case %llu, checksum of %lu bytes, with %s\n",
           (unsigned long long)case_now, (unsigned long)length,
           way_name((int)way_now));
    printf("library     %08lx\nindependent %08lx\n", (unsigned long)got,
           (unsigned long)due);
    fflush(stdout);
}

/* The checksum of a file's first bytes, lent in each way. */
static void checksum_each_way(figures *seen, const stored *file,
                              uint32_t length)
{
    uint32_t due = ind_checksum(file->bytes, length);
    int ways = length == 0 ? WAYS : NULL_FOR_NOTHING;
    for (int lent = PAGE_BEFORE; lent < ways; lent++) {
        uint8_t *bytes = lend(files[0], length, (way)lent);
        uint32_t got;
        copy(bytes, file->bytes, length);
        begin_call(CHECKSUM, 0, (way)lent);
        got = yard_checksum(bytes, length);
        end_call();
        seen->differ += got != due;
        if (got != due)
            tell_checksum(length, got, due);
        seen->calls++;
        seen->checksums++;
        seen->with_null += lent == NULL_FOR_NOTHING;
    }
}

/* The questions that a case is asked: its own and, where another has the same
 * cases, that one too; but routes are asked once, since that asks both
 * functions that list them. Gives back how many. */
static int questions_of(const asked *ask, uint32_t questions[QUESTIONS_ALIKE])
{
    questions[0] = first_of(ask->question);
    questions[1] = second_of(questions[0]);
    return questions[1] == ASK_NOTHING || asks_routes(ask->question) ? 1 : 2;
}

/* A case's calls, with some buffers of no bytes where nothing is set. */
static void run_calls(figures *seen, source *from, const asked *ask,
                      int nothing)
{
    uint32_t questions[QUESTIONS_ALIKE];
    int count = questions_of(ask, questions);
    for (int i = 0; i < count; i++) {
        call of = call_of(from, ask, questions[i]);
        if (nothing)
            lend_nothing(from, &of);
        call_each_way(seen, &of);
    }
}

/* A generated case, the checksum of its first file, now and then the same
 * with buffers of no bytes, and the case with some bits of a file flipped. A
 * case of load is made once more with bits flipped in some pieces. */
static void run_case(figures *seen, const generation *run, uint64_t index)
{
    static asked ask;
    source from = source_from(run->seed ^ (index << 20));
    uint32_t which;
    case_now = index;
    build_case(run, index, &ask);
    if (ask.question == ASK_LOAD) {
        run_loads(seen, &from, &ask, 0);
        run_loads(seen, &from, &ask, 1);
        return;
    }
    run_calls(seen, &from, &ask, 0);
    checksum_each_way(seen, &ask.files[0], ask.files[0].length);
    if (once_in(&from, 4)) {
        run_calls(seen, &from, &ask, 1);
        checksum_each_way(seen, &ask.files[0], 0);
    }
    which = asks_pair(ask.question) ? draw(&from, FILES) : 0;
    flip_bits(&from, &ask.files[which]);
    if (!once_in(&from, 4))
        seal(&ask.files[which]);
    run_calls(seen, &from, &ask, 0);
}

/* Whether a question is asked for, or the other that has the same cases. */
static int is_asked_for(const wanted *kinds, uint32_t question)
{
    return kinds->asked_for[question] || kinds->asked_for[first_of(question)];
}

/* A position and a point at every whole degree and beside it, each asked in
 * degrees with an output of just as many bytes as they take. */
static void run_whole_degrees(figures *seen, const wanted *kinds)
{
    static asked ask;
    cases_now = "whole-degree case";
    for (uint32_t i = 0; i < DEGREE_CASES; i++) {
        whole_degree put;
        call of = { .out_length = YARD_DEGREES_SIZE };
        build_whole_degree(i, &ask, &put);
        if (!is_asked_for(kinds, ask.question))
            continue;
        case_now = i;
        of.ask = pose(&ask);
        for (int n = 0; n < NUMBERS; n++)
            of.above[n] = ask.numbers[n];
        call_each_way(seen, &of);
    }
    cases_now = "case";
}

/* The calls of a name, and how many were answered by each number. */
static void print_calls(const char *name, const uint64_t answers[IND_NUMBERS])
{
    unsigned long long calls = 0;
    for (int n = 0; n < IND_NUMBERS; n++)
        calls += answers[n];
    printf("%-13s %10llu calls:", name, calls);
    for (int n = 0; n < IND_NUMBERS; n++)
        if (answers[n] > 0)
            printf(" %d:%llu", n, (unsigned long long)answers[n]);
    putchar('\n');
}

static void print_figures(const figures *seen)
{
    printf("%-13s %10llu calls\n", "checksum",
           (unsigned long long)seen->checksums);
    for (uint32_t q = ASK_X1; q < QUESTIONS; q++) {
        if (is_question(q) && q != ASK_LOAD)
            print_calls(question_name(q), seen->answers[q]);
        for (uint32_t kind = CALL_OPEN; q == ASK_LOAD && kind < CALL_KINDS;
             kind++)
            print_calls(call_name(kind), seen->load_answers[kind]);
    }
    printf("%llu calls, %llu of them with a null pointer, %llu differ, %llu "
           "bytes changed, no signal\n",
           (unsigned long long)seen->calls,
           (unsigned long long)seen->with_null,
           (unsigned long long)seen->differ,
           (unsigned long long)seen->changed);
}

int main(int count, char **words)
{
    static figures seen;
    generation run;
    uint64_t index = 0, at_degrees;
    if (count < 3) {
        fputs("usage: guard SEED COUNT [KIND..]\n", stderr);
        return RUN_MISUSED;
    }
    if (!read_generation(count - 1, words + 1, &run))
        return RUN_MISUSED;
    for (int i = 0; i < FILES; i++)
        files[i] = make_room(FILE_ROOM);
    lies_room = make_room(LIES_ROOM);
    out_room = make_room(OUT_ROOM);
    words_room = make_room(LENT_WORDS_ROOM);
    make_load_rooms();
    catch_signals();
    run_whole_degrees(&seen, &run.kinds);
    at_degrees = seen.calls;
    while (seen.calls - at_degrees < run.end)
        run_case(&seen, &run, index++);
    print_figures(&seen);
    return seen.differ + seen.changed == 0 ? RUN_WELL : RUN_BAD;
}
