/* An example of the C library: a cab unit that follows a way through a station. It starts at an object of the X.2, which is left by a link, with
 * every lie unknown, and prints what lies ahead. Then turnouts report how they lie, one after the other. Where the list stopped at a turnout, the
 * train has come up to it by the time of the next report, and the unit looks ahead from the object before it.
 *
 *     tools/library && target/libyard/cab examples/1.1 examples/1.2 47 0 1=reverse 3=normal 2=reverse 3=reverse */
#include <inttypes.h>
#include <stdint.h>
#include <stdio.h>
#include <stdlib.h>
#include <string.h>

#include "station_file.h"
#include "yard.h"

static station_file first, second;

/* The object last passed, and the link that it leaves by; what lies ahead of it. */
typedef struct {
    size_t offset, link;
    uint8_t lies[YARD_LIES_SIZE];
    uint8_t objects[YARD_AHEAD_SIZE];
    uint64_t answer;
} train;

static const char *const stops[] = {
    [YARD_STOP_BOUNDARY] = "ends at a boundary",
    [YARD_STOP_NO_LINK] = "ends where no link leads on",
    [YARD_STOP_UNKNOWN_LIE] = "stops at a turnout of unknown lie",
    [YARD_STOP_REPEATED] = "ends before an object met already",
    [YARD_STOP_AGAINST_LIE] = "stops at a turnout that lies against the train",
    [YARD_STOP_FULL] = "goes on beyond the list"
};

/* Looks ahead, and prints it. Returns whether the question was answered. */
static int look(train *t)
{
    t->answer = yard_ahead(first.bytes, first.length, second.bytes, second.length, t->offset, t->link, t->lies, sizeof t->lies, t->objects,
                           sizeof t->objects);
    printf("from %zu by link %zu:", t->offset, t->link);
    if (YARD_NUMBER(t->answer) != YARD_ANSWERED) {
        printf(" refused, number %u at place %" PRIu32 " of file %u\n", YARD_NUMBER(t->answer), YARD_PLACE(t->answer), YARD_FILE(t->answer));
        return 0;
    }
    for (unsigned i = 0; i < YARD_OBJECTS(t->answer); i++)
        printf(" %u", yard_word(t->objects, i));
    printf(YARD_OBJECTS(t->answer) == 0 ? " nothing; the way %s\n" : "; the way %s\n", stops[YARD_STOP(t->answer)]);
    return 1;
}

/* Where the links of a record of each kind stand among its values, and how many there are. */
static unsigned first_link(uint32_t kind)
{
    switch (kind) {
    case YARD_START_BOUNDARY:
    case YARD_END_BOUNDARY: return YARD_BOUNDARY_LINK;
    case YARD_TURNOUT: return YARD_TURNOUT_FRONT;
    case YARD_BALISE: return YARD_BALISE_PREVIOUS;
    case YARD_SIGNAL: return YARD_SIGNAL_PREVIOUS;
    default: return YARD_JOINT_PREVIOUS;
    }
}

static unsigned link_count(uint32_t kind)
{
    switch (kind) {
    case YARD_START_BOUNDARY:
    case YARD_END_BOUNDARY: return 1;
    case YARD_TURNOUT: return 3;
    default: return 2;
    }
}

/* Which link of an object names another one. The object was listed, so that its record is there. */
static size_t link_to(size_t offset, uint32_t other)
{
    uint8_t record[YARD_RECORD_SIZE] = { 0 };
    unsigned link = 0;
    yard_record(second.bytes, second.length, offset, record, sizeof record);
    uint32_t kind = yard_unsigned(record, YARD_RECORD_KIND);
    while (link + 1 < link_count(kind) && yard_unsigned(record, first_link(kind) + link) != other)
        link++;
    return link;
}

/* The train comes up to the turnout that the list stopped at: it has passed the object before that, if one was listed. */
static void come_up(train *t)
{
    unsigned objects = YARD_OBJECTS(t->answer), stop = YARD_STOP(t->answer);
    if (objects < 2 || (stop != YARD_STOP_UNKNOWN_LIE && stop != YARD_STOP_AGAINST_LIE))
        return;
    t->offset = yard_word(t->objects, objects - 2);
    t->link = link_to(t->offset, yard_word(t->objects, objects - 1));
}

/* A turnout reports how it lies: NUMBER=normal, NUMBER=reverse or NUMBER=unknown. Returns whether the word says so. */
static int report(train *t, const char *word)
{
    static const char *const lies[] = { [YARD_LIE_NORMAL] = "normal", [YARD_LIE_REVERSE] = "reverse", [YARD_LIE_UNKNOWN] = "unknown" };
    char *end;
    unsigned long number = strtoul(word, &end, 10);
    if (end == word || *end != '=' || number < 1 || number >= YARD_LIES_SIZE)
        return 0;
    for (uint8_t lie = YARD_LIE_NORMAL; lie <= YARD_LIE_UNKNOWN; lie++)
        if (strcmp(end + 1, lies[lie]) == 0) {
            t->lies[number] = lie;
            printf("turnout %lu lies %s\n", number, lies[lie]);
            return 1;
        }
    return 0;
}

/* The number that a word is. Returns whether it is one. */
static int number(const char *word, size_t *n)
{
    char *end;
    *n = strtoul(word, &end, 10);
    if (*word >= '0' && *word <= '9' && *end == '\0')
        return 1;
    fprintf(stderr, "cab: no number: '%s'\n", word);
    return 0;
}

int main(int words, char **word)
{
    enum { OFFSET = 3, LINK, REPORTS };
    static train t;
    if (words < REPORTS) {
        fprintf(stderr, "usage: cab X1FILE X2FILE OFFSET LINK [NUMBER=normal|reverse|unknown]..\n");
        return 2;
    }
    if (!number(word[OFFSET], &t.offset) || !number(word[LINK], &t.link))
        return 2;
    if (!read_file(word[1], &first) || !read_file(word[2], &second))
        return 1;
    memset(t.lies, YARD_LIE_UNKNOWN, sizeof t.lies);
    if (!look(&t))
        return 1;
    for (int i = REPORTS; i < words; i++) {
        if (!report(&t, word[i])) {
            fprintf(stderr, "cab: no report of a turnout: '%s'\n", word[i]);
            return 2;
        }
        come_up(&t);
        if (!look(&t))
            return 1;
    }
    return 0;
}
