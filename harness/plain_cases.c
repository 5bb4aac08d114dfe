/* The plain reader held to the independent core on generated cases. */
#include "plain_cases.h"

#include "commands/answer.h"
#include "generator/cases.h"
#include "plain.h"

/* What the plain reader says to a case: 1 accepted, 0 refused. */
static int plain_answer(const asked *ask, ind_coordinate *found)
{
    const stored *one = &ask->files[0], *other = &ask->files[1];
    switch (ask->question) {
    case ASK_X1: return plain_x1(one->bytes, one->length);
    case ASK_X2: return plain_x2(one->bytes, one->length);
    case ASK_PAIR:
        return plain_pair(one->bytes, one->length, other->bytes,
                          other->length);
    default:
        return plain_coordinate(one->bytes, one->length, ask->numbers[0],
                                ask->numbers[1], &found->latitude,
                                &found->longitude);
    }
}

static ind_coordinate core_coordinate(const asked *ask)
{
    const stored *file = &ask->files[0];
    return ind_coordinate_at(file->bytes, file->length, ask->numbers[0],
                             ask->numbers[1]);
}

plain_figures plain_compared(uint64_t seed, uint64_t count)
{
    static asked ask;
    static const uint32_t read_by_plain[] = { ASK_X1, ASK_X2, ASK_PAIR,
                                              ASK_COORDINATE };
    plain_figures seen = { 0, 0, 0 };
    generation run = { seed, 0, count, { { 0 }, 0 } };
    for (size_t i = 0; i < sizeof read_by_plain / sizeof *read_by_plain; i++)
        run.kinds.asked_for[read_by_plain[i]] = 1;
    for (uint64_t i = 0; i < count; i++) {
        ind_coordinate plain = { { 0, 0, 0 }, 0, 0 }, core = plain;
        posed to_core;
        int accepted, alike;
        build_case(&run, i, &ask);
        to_core = pose(&ask);
        accepted = plain_answer(&ask, &plain);
        alike = accepted == (answer_case(&to_core).number == IND_ACCEPTED);
        if (ask.question == ASK_COORDINATE)
            core = core_coordinate(&ask);
        alike = alike && plain.latitude == core.latitude
            && plain.longitude == core.longitude;
        seen.accepted += (uint64_t)(alike && accepted);
        seen.refused += (uint64_t)(alike && !accepted);
        seen.differ += (uint64_t)!alike;
    }
    return seen;
}
