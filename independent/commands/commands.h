/* The sub-commands of the independent program. Each returns the exit status
 * of the run; main sees to it that all that they print is written. */
#ifndef COMMANDS_H
#define COMMANDS_H

enum {
    RUN_WELL = 0,
    RUN_BAD = 1,
    /* The command line was wrong. */
    RUN_MISUSED = 2,
    /* What is to be judged cannot be read, so that nothing is judged of it. */
    RUN_UNJUDGED = 2
};

int command_sums_files(void);
int command_sums(void);
int command_answer(void);
int command_list(void);
int command_degree_cases(void);

/* This takes [EXAMPLES]. */
int command_self(int count, char **words);

/* This takes FILE PLAN [LIMIT [BUDGET [ROOM]]] [routes2]. */
int command_plan(int count, char **words);

/* This takes SEED FILE PLAN. */
int command_plan_case(int count, char **words);

/* This takes SEED COUNT. */
int command_backwards_cases(int count, char **words);

/* This takes CASES ANSWERS. */
int command_backwards(int count, char **words);

/* This takes FILE BYTES. */
int command_split(int count, char **words);

/* This takes STATION TYPE VERSION TOTAL TRAILER. */
int command_load(int count, char **words);

/* These take SEED COUNT [KIND..]. */
int command_cases(int count, char **words);
int command_kinds(int count, char **words);
int command_places(int count, char **words);
int command_each(int count, char **words);
int command_exact(int count, char **words);
int command_plan_exact(int count, char **words);

#endif
