/* The independent program: one sub-command per run. */
#include <stdio.h>
#include <string.h>

#include "commands.h"

/* A command takes either no words or some. */
typedef struct {
    const char *name;
    int (*run)(void);
    int (*run_with)(int count, char **words);
    const char *usage;
} command;

static const command commands[] = {
    { "sums-files", command_sums_files, NULL,
      "sums-files            write the stored files of the checksum check" },
    { "sums", command_sums, NULL,
      "sums                  read them, print LENGTH CHECKSUM for each" },
    { "answer", command_answer, NULL,
      "answer                read a batch of cases, print their answers" },
    { "list", command_list, NULL,
      "list                  read an X.2, print what yardlist prints" },
    { "plan", NULL, command_plan,
      "plan FILE PLAN ..     an X.2 and a plan, print what yardplan prints" },
    { "plan-case", NULL, command_plan_case,
      "plan-case SEED ..     write an X.2 and a plan, print what to ask with" },
    { "split", NULL, command_split,
      "split FILE BYTES      print a file's pieces of at most so many bytes" },
    { "load", NULL, command_load,
      "load STATION ..       read such pieces, print the file they make" },
    { "cases", NULL, command_cases,
      "cases SEED COUNT ..   write so many generated cases" },
    { "kinds", NULL, command_kinds,
      "kinds SEED COUNT ..   count those cases by question and number" },
    { "places", NULL, command_places,
      "places SEED COUNT ..  the same by kind of place too" },
    { "each", NULL, command_each,
      "each SEED COUNT ..    write the first of them for each kind of place" },
    { "exact", NULL, command_exact,
      "exact SEED COUNT ..   answer them from blocks of exactly their size" },
    { "plan-exact", NULL, command_plan_exact,
      "plan-exact SEED ..    print what yardplan prints of such cases" },
    { "backwards-cases", NULL, command_backwards_cases,
      "backwards-cases ..    write so many yards, a case for each boundary" },
    { "backwards", NULL, command_backwards,
      "backwards CASES ..    such cases and their answers, read backwards" },
    { "degree-cases", command_degree_cases, NULL,
      "degree-cases          write cases of every whole degree" },
    { "self", NULL, command_self,
      "self [EXAMPLES]       check document 01's examples, plans, the depot" },
};

#define COMMANDS (sizeof commands / sizeof *commands)

static int usage(void)
{
    fputs("usage: independent COMMAND ..\n", stderr);
    for (size_t i = 0; i < COMMANDS; i++)
        fprintf(stderr, "  %s\n", commands[i].usage);
    fputs("after SEED COUNT may stand kinds: x1 x2 pair track point "
          "coordinate record\nroutes header1 header2 routes2 degrees "
          "point-degrees load ahead x1-version-1;\nand small, for small files "
          "alone\n",
          stderr);
    return RUN_MISUSED;
}

static int run(const command *named, int count, char **words)
{
    if (named->run_with != NULL)
        return named->run_with(count, words);
    if (count == 0)
        return named->run();
    fprintf(stderr, "independent: %s takes no words\n", named->name);
    return RUN_MISUSED;
}

/* The status of a run, once all that it printed is written. */
static int written(int status)
{
    if (fflush(stdout) == 0 && !ferror(stdout))
        return status;
    fputs("independent: standard output cannot be written\n", stderr);
    return status == RUN_WELL ? RUN_BAD : status;
}

int main(int count, char **words)
{
    if (count < 2)
        return usage();
    for (size_t i = 0; i < COMMANDS; i++)
        if (strcmp(words[1], commands[i].name) == 0)
            return written(run(&commands[i], count - 2, words + 2));
    fprintf(stderr, "independent: no command %s\n", words[1]);
    return usage();
}
