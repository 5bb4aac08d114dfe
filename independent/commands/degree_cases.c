/* A position and a point at every whole degree and beside it, written in the
 * batch form. */
#include <stdio.h>

#include "batch.h"
#include "commands.h"
#include "generator/whole_degrees.h"

int command_degree_cases(void)
{
    static asked ask;
    whole_degree put;
    for (uint32_t i = 0; i < DEGREE_CASES; i++) {
        build_whole_degree(i, &ask, &put);
        write_case(stdout, &ask);
    }
    return RUN_WELL;
}
