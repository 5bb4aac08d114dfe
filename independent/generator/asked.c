/* Cases as they are posed, and the names of the questions. */
#include "asked.h"

#include <stddef.h>

posed pose(const asked *ask)
{
    posed given;
    given.question = ask->question;
    for (int i = 0; i < NUMBERS; i++)
        given.numbers[i] = ask->numbers[i];
    for (int i = 0; i < FILES; i++) {
        given.bytes[i] = ask->files[i].bytes;
        given.length[i] = ask->files[i].length;
    }
    if (ask->question == ASK_LOAD) {
        given.bytes[0] = ask->calls.bytes;
        given.length[0] = ask->calls.length;
    }
    given.lies = ask->lies;
    return given;
}

const char *question_name(uint32_t asked_for)
{
    static const char *const names[QUESTIONS] = {
        [ASK_X1] = "x1",
        [ASK_X2] = "x2",
        [ASK_PAIR] = "pair",
        [ASK_TRACK] = "track",
        [ASK_POINT] = "point",
        [ASK_COORDINATE] = "coordinate",
        [ASK_RECORD] = "record",
        [ASK_ROUTES] = "routes",
        [ASK_HEADER1] = "header1",
        [ASK_HEADER2] = "header2",
        [ASK_ROUTES2] = "routes2",
        [ASK_DEGREES] = "degrees",
        [ASK_POINT_DEGREES] = "point-degrees",
        [ASK_LOAD] = "load",
        [ASK_AHEAD] = "ahead",
        [ASK_X1_VERSION_1] = "x1-version-1"
    };
    return asked_for < QUESTIONS ? names[asked_for] : NULL;
}

int is_question(uint32_t asked_for)
{
    return question_name(asked_for) != NULL;
}

uint32_t second_of(uint32_t asked_for)
{
    switch (asked_for) {
    case ASK_POINT: return ASK_POINT_DEGREES;
    case ASK_COORDINATE: return ASK_DEGREES;
    case ASK_ROUTES: return ASK_ROUTES2;
    default: return ASK_NOTHING;
    }
}

uint32_t first_of(uint32_t asked_for)
{
    switch (asked_for) {
    case ASK_POINT_DEGREES: return ASK_POINT;
    case ASK_DEGREES: return ASK_COORDINATE;
    case ASK_ROUTES2: return ASK_ROUTES;
    default: return asked_for;
    }
}

int is_asked_unnamed(uint32_t asked_for)
{
    return is_question(asked_for) && asked_for == first_of(asked_for)
        && asked_for != ASK_LOAD && asked_for != ASK_AHEAD;
}

int asks_pair(uint32_t asked_for)
{
    return asked_for == ASK_PAIR || asked_for == ASK_AHEAD;
}

int asks_routes(uint32_t asked_for)
{
    return first_of(asked_for) == ASK_ROUTES;
}
