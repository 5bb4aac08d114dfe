/* Generated cases, written in the batch form. */
#include <stdio.h>

#include "batch.h"
#include "commands.h"
#include "generation.h"

int command_cases(int count, char **words)
{
    static asked ask;
    generation run;
    if (!read_generation(count, words, &run))
        return RUN_MISUSED;
    for (uint64_t i = run.first; i < run.end; i++) {
        build_case(&run, i, &ask);
        write_case(stdout, &ask);
    }
    return RUN_WELL;
}
