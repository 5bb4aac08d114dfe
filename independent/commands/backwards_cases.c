/* Generated yards, each asked for its routes at every boundary, written in the
 * batch form. */
#include <stdio.h>

#include "batch.h"
#include "commands.h"
#include "generation.h"
#include "generator/both_ways.h"

int command_backwards_cases(int count, char **words)
{
    static asked ask;
    static both_ways made;
    generation run;
    if (count != 2) {
        fputs("independent: backwards-cases takes SEED COUNT\n", stderr);
        return RUN_MISUSED;
    }
    if (!read_generation(count, words, &run))
        return RUN_MISUSED;
    for (uint64_t i = run.first; i < run.end; i++) {
        build_both_ways(run.seed, i, &ask, &made);
        for (uint32_t b = 0; b < made.count; b++) {
            turn_to(&made, b, &ask);
            write_case(stdout, &ask);
        }
    }
    return RUN_WELL;
}
