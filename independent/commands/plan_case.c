/* A generated X.2 and a plan for it, each to a file of its own. */
#include <stdio.h>

#include "commands.h"
#include "generator/asked.h"
#include "generator/plans.h"
#include "number.h"

static int write_bytes(const char *name, const uint8_t *bytes, size_t length)
{
    FILE *file = fopen(name, "wb");
    int written;
    if (file == NULL)
        return 0;
    written = fwrite(bytes, 1, length, file) == length;
    return fclose(file) == 0 && written;
}

/* The words to ask with, on one line. */
static void print_asked(const plan_case *made)
{
    const uint32_t numbers[] = { made->limit, made->budget, made->room };
    for (uint32_t i = 0; i < made->words; i++)
        printf(i == 0 ? "%lu" : " %lu", (unsigned long)numbers[i]);
    if (made->flat)
        printf(made->words == 0 ? "%s" : " %s", question_name(ASK_ROUTES2));
    putchar('\n');
}

int command_plan_case(int count, char **words)
{
    static plan_case made;
    uint64_t seed;
    if (count != 3 || !read_number(words[0], &seed)) {
        fputs("independent: plan-case takes SEED FILE PLAN\n", stderr);
        return RUN_MISUSED;
    }
    build_plan_case(seed, &made);
    if (!write_bytes(words[1], made.file.bytes, made.file.length)
        || !write_bytes(words[2], made.plan.bytes, made.plan.length)) {
        fputs("independent: the two files cannot be written\n", stderr);
        return RUN_BAD;
    }
    print_asked(&made);
    return RUN_WELL;
}
