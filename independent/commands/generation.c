/* SEED COUNT [KIND..]: which cases are wanted. COUNT may be a part of them,
 * FIRST..END. */
#include "generation.h"

#include <stdio.h>
#include <string.h>

#include "number.h"

/* One KIND word; 0 if there is no such kind. */
static int want_kind(const char *word, wanted *kinds)
{
    if (strcmp(word, "small") == 0) {
        kinds->small = 1;
        return 1;
    }
    for (uint32_t i = ASK_X1; i < QUESTIONS; i++)
        if (is_question(i) && strcmp(word, question_name(i)) == 0) {
            kinds->asked_for[i] = 1;
            return 1;
        }
    return 0;
}

/* COUNT, or FIRST..END: the cases from an index up to another. */
static int read_range(char *word, generation *run)
{
    char *dots = strstr(word, "..");
    if (dots == NULL)
        return read_number(word, &run->end);
    char *end = dots + 2;
    *dots = '\0';
    int right = read_number(word, &run->first) && read_number(end, &run->end);
    *dots = '.';
    return right;
}

int read_generation(int count, char **words, generation *run)
{
    int named = 0;
    memset(run, 0, sizeof *run);
    if (count < 2 || !read_number(words[0], &run->seed)
        || !read_range(words[1], run)) {
        fputs("independent: SEED and COUNT are numbers\n", stderr);
        return 0;
    }
    for (int i = 2; i < count; i++) {
        if (!want_kind(words[i], &run->kinds)) {
            fprintf(stderr, "independent: no kind %s\n", words[i]);
            return 0;
        }
        named += strcmp(words[i], "small") != 0;
    }
    for (uint32_t i = ASK_X1; named == 0 && i < QUESTIONS; i++)
        run->kinds.asked_for[i] = is_asked_unnamed(i);
    return 1;
}
