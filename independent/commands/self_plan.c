/* docs/PLAN.md's rules, each asserted of plans beside yard Y; and 02's ticket
 * 8, asserted of the first depot. */
#include "self.h"

#include <string.h>

#include "core/core.h"
#include "plan.h"

enum {
    ANY_LIMIT = 0,
    ANY_BUDGET = 65535,
    ANY_ROOM = 65535
};

/* A plan, what is printed after the verdict of Y, and what is said. */
typedef struct {
    const char *plan;
    const char *printed;
    const char *said;
    const char *sentence;
} plan_example;

#define BOTH_ROUTES "44 80 56\n44 80 68\n"
#define AGREES "from 44 agrees 2 routes\n"
#define LISTED_ALONE                                                         \
    "from 44 differs both 0 missing 0 extra 2\n"                             \
    "extra 44 80 56\n"                                                       \
    "extra 44 80 68\n"
#define LINE(number) "yardplan: line " number " of the plan: "
#define FROM_WRONG "'from' takes one offset from 0 to 65535\n"
#define WORD_WRONG "a word is no offset from 0 to 65535\n"
#define TOO_FEW "a route has at least 2 offsets\n"
#define TOO_MANY "a route has at most 512 offsets\n"
#define ELSEWHERE                                                            \
    "the route does not start at the offset of the 'from' line above it\n"
#define AGAIN "the route stands in an earlier line\n"
#define NO_START "yardplan: the plan names no start\n"

static const plan_example differences[] = {
    { BOTH_ROUTES, AGREES, "", "the plan of Y" },
    { "44 80 68\n44 80 56", AGREES, "",
      "in another order, without the last line feed" },
    { "44 80 56\n",
      "from 44 differs both 1 missing 0 extra 1\n"
      "both 44 80 56\n"
      "extra 44 80 68\n",
      "", "a route left out is extra" },
    { "44 80 56\n44 80 69\n",
      "from 44 differs both 1 missing 1 extra 1\n"
      "both 44 80 56\n"
      "missing 44 80 69\n"
      "extra 44 80 68\n",
      "", "a wrong offset: missing, and the right one extra" },
    { "44 56 80\n44 68 80\n",
      "from 44 differs both 0 missing 2 extra 2\n"
      "missing 44 56 80\n"
      "missing 44 68 80\n"
      "extra 44 80 56\n"
      "extra 44 80 68\n",
      "", "the order in a route counts" },
    { "44 9 8\n44 80 68\n44 80 56\n44 7\n44 9 8 7\n",
      "from 44 differs both 2 missing 3 extra 0\n"
      "both 44 80 56\n"
      "both 44 80 68\n"
      "missing 44 9 8\n"
      "missing 44 7\n"
      "missing 44 9 8 7\n",
      "", "both in the list's order, missing in the plan's" },
    { "44 80\n44 80 56 44\n" BOTH_ROUTES,
      "from 44 differs both 2 missing 2 extra 0\n"
      "both 44 80 56\n"
      "both 44 80 68\n"
      "missing 44 80\n"
      "missing 44 80 56 44\n",
      "", "a part of a route and a longer one are others" },
    { "68 80 44\n44 80 56\n56 80 44\n44 80 68\n",
      AGREES "from 56 agrees 1 routes\nfrom 68 agrees 1 routes\n", "",
      "starts by rising offset, of either kind" },
    { "80 44\n45 80\n0 1\n65535 1\n" BOTH_ROUTES,
      "from 0 refused 13\n" AGREES
      "from 45 refused 13\nfrom 80 refused 13\nfrom 65535 refused 13\n",
      "", "starts that are no boundaries" }
};

static const plan_example from_lines[] = {
    { "from 44\n", LISTED_ALONE, "", "a start without routes is named" },
    { "from 44\n" BOTH_ROUTES "from 68\n68 80 44\n",
      AGREES "from 68 agrees 1 routes\n", "", "routes below 'from' lines" },
    { "44 80 68\nfrom 68\n68 80 44\nfrom 44\nfrom 44\n44 80 56\n",
      AGREES "from 68 agrees 1 routes\n", "", "a start named three times" },
    { "from 68\n" BOTH_ROUTES,
      "from 68 differs both 0 missing 0 extra 1\nextra 68 80 44\n",
      LINE("2") ELSEWHERE LINE("3") ELSEWHERE,
      "routes that start elsewhere name no start" },
    { "from 68\n68 80 44\n" BOTH_ROUTES, "from 68 agrees 1 routes\n",
      LINE("3") ELSEWHERE LINE("4") ELSEWHERE,
      "a 'from' line holds for all lines below" },
    { "from 68\nfrom\n" BOTH_ROUTES "68 80 44\n",
      AGREES "from 68 agrees 1 routes\n", LINE("2") FROM_WRONG,
      "after a wrong 'from' line routes are from their first offsets" },
    { "from 68\nfrom 44 44\n" BOTH_ROUTES "from x\n68 80 44\n",
      AGREES "from 68 agrees 1 routes\n",
      LINE("2") FROM_WRONG LINE("5") FROM_WRONG, "and so until the next" },
    { "from\nfrom \t\r\nfrom#44\nfrom 1 2\nfrom 65536\nfrom -1\nfrom from\n"
      "from 44x\nfrom 44 x\nfrom 4294967340\nfrom 44\n",
      LISTED_ALONE,
      LINE("1") FROM_WRONG LINE("2") FROM_WRONG LINE("3") FROM_WRONG
          LINE("4") FROM_WRONG LINE("5") FROM_WRONG LINE("6") FROM_WRONG
              LINE("7") FROM_WRONG LINE("8") FROM_WRONG LINE("9") FROM_WRONG
                  LINE("10") FROM_WRONG,
      "'from' takes one offset" },
    { "FROM 44\nFrom 44\nfrom44\n44 from\nfrom 44 # 80\n", LISTED_ALONE,
      LINE("1") WORD_WRONG LINE("2") WORD_WRONG LINE("3") WORD_WRONG
          LINE("4") WORD_WRONG,
      "no other word is 'from'" },
    { "\tfrom\t00044\r\n" BOTH_ROUTES, AGREES, "",
      "blanks and zeros in a 'from' line" }
};

static const plan_example words[] = {
    { "", "", NO_START, "an empty plan" },
    { "\n\n# 44 80 56\n  \t\r\n#\n#from 44", "", NO_START,
      "a plan of comments" },
    { "44 80 56# 80\n44 80 68 #\n# x\n", AGREES, "",
      "a comment starts anywhere" },
    { "44 80#56\n",
      "from 44 differs both 0 missing 1 extra 2\n"
      "missing 44 80\n"
      "extra 44 80 56\n"
      "extra 44 80 68\n",
      "", "a comment ends the words of its line" },
    { "\t44\t80\t56\r\n 44\r80\r68 \r", AGREES, "",
      "tabs and carriage returns are blanks" },
    { "44 80 56 \v\n44 80 68\f\n44\xA0" "80 56\nfrom 44\n", LISTED_ALONE,
      LINE("1") WORD_WRONG LINE("2") WORD_WRONG LINE("3") WORD_WRONG,
      "no other bytes are" },
    { "00044 080 0000000000000000000000000000056\n044 80 68\n", AGREES, "",
      "zeros before a number" },
    { "44 65535\n44 65536\n44 65580\n44 4294967340\n"
      "44 18446744073709551660\n44 -1\n44 +80\n44 x\n44 0x50\n44 80,\n",
      "from 44 differs both 0 missing 1 extra 2\n"
      "missing 44 65535\n"
      "extra 44 80 56\n"
      "extra 44 80 68\n",
      LINE("2") WORD_WRONG LINE("3") WORD_WRONG LINE("4") WORD_WRONG
          LINE("5") WORD_WRONG LINE("6") WORD_WRONG LINE("7") WORD_WRONG
              LINE("8") WORD_WRONG LINE("9") WORD_WRONG LINE("10") WORD_WRONG,
      "what is no offset" }
};

static const plan_example wrong_lines[] = {
    { "44\n", "", LINE("1") TOO_FEW NO_START,
      "one offset is no route and names no start" },
    { "x\n" BOTH_ROUTES "x y\n\n 44 80 5.6\n44 # 80\n", AGREES,
      LINE("1") WORD_WRONG LINE("4") WORD_WRONG LINE("6") WORD_WRONG
          LINE("7") TOO_FEW,
      "wrong lines are passed over" },
    { BOTH_ROUTES "44 80 56\n044 80 68\n44 80 56\n", AGREES,
      LINE("3") AGAIN LINE("4") AGAIN LINE("5") AGAIN, "a route again" },
    { BOTH_ROUTES "from 68\n44 80 56\n",
      AGREES "from 68 differs both 0 missing 0 extra 1\nextra 68 80 44\n",
      LINE("4") ELSEWHERE, "elsewhere is said before again" },
    { "from 68\n44 80 56\nfrom 44\n" BOTH_ROUTES,
      AGREES "from 68 differs both 0 missing 0 extra 1\nextra 68 80 44\n",
      LINE("2") ELSEWHERE, "a line passed over is no earlier line" },
    { "from 68\nx\n68\n44 80 56\n68 80 44\n68 80 44\n",
      "from 68 agrees 1 routes\n",
      LINE("2") WORD_WRONG LINE("3") TOO_FEW LINE("4") ELSEWHERE
          LINE("6") AGAIN,
      "one after the other, by rising line" }
};

static int once_prints(const planned_yard *of, const char *due,
                       const char *due_said)
{
    FILE *output = tmpfile(), *said = tmpfile();
    int right, right_said;
    if (output == NULL || said == NULL)
        return 0;
    print_plan(output, said, of);
    right = printed(output, due);
    right_said = printed(said, due_said);
    return right && right_said;
}

/* By either lister. */
static int plan_prints(const planned_yard *of, const char *due,
                       const char *due_said)
{
    planned_yard other = *of;
    other.flat = !of->flat;
    return once_prints(of, due, due_said)
        && once_prints(&other, due, due_said);
}

/* A file beside a plan of so many bytes. */
static planned_yard beside(const stored *file, const char *plan, size_t length)
{
    return (planned_yard){ file->bytes,  file->length, (const uint8_t *)plan,
                           length,       ANY_LIMIT,    ANY_BUDGET,
                           ANY_ROOM,     0 };
}

static void all_examples(const stored *y, const plan_example *examples,
                         size_t count)
{
    for (size_t i = 0; i < count; i++) {
        const plan_example *example = &examples[i];
        planned_yard of = beside(y, example->plan, strlen(example->plan));
        char due[4000] = "verdict 0 0\n";
        strcat(due, example->printed);
        ensure(plan_prints(&of, due, example->said), example->sentence);
    }
}

/* Limit, budget and room are those of the question. */
static void asked_examples(const stored *y)
{
    planned_yard of = beside(y, BOTH_ROUTES, strlen(BOTH_ROUTES));
    of.limit = 2;
    ensure(plan_prints(&of,
                       "verdict 0 0\n"
                       "from 44 differs both 0 missing 2 extra 0\n"
                       "missing 44 80 56\n"
                       "missing 44 80 68\n",
                       ""),
           "limit 2: both are missing");
    of.plan = (const uint8_t *)"from 44";
    of.plan_length = strlen("from 44");
    ensure(plan_prints(&of, "verdict 0 0\nfrom 44 agrees 0 routes\n", ""),
           "limit 2 and none planned: agrees");
    of.limit = 513;
    ensure(plan_prints(&of, "verdict 0 0\nfrom 44 refused 13\n", ""),
           "limit 513: refused 13");
    of.limit = 3;
    of.budget = 3;
    ensure(plan_prints(&of, "verdict 0 0\nfrom 44 refused 14\n", ""),
           "budget 3: refused 14");
    of.budget = 4;
    of.room = 7;
    ensure(plan_prints(&of, "verdict 0 0\nfrom 44 refused 15\n", ""),
           "room 7: refused 15");
    of.room = 8;
    ensure(plan_prints(&of, "verdict 0 0\n" LISTED_ALONE, ""),
           "limit 3, budget 4, room 8: listed");
}

static void refused_examples(void)
{
    static stored y;
    planned_yard of;
    make_y(&y, Y_TURNOUT);
    of = beside(&y, "x\n68 80 44\n" BOTH_ROUTES,
                strlen("x\n68 80 44\n" BOTH_ROUTES));
    ensure(plan_prints(&of, "verdict 8 99\nfrom 44 refused 8\n"
                            "from 68 refused 8\n",
                       LINE("1") WORD_WRONG),
           "each start of a refused file is refused");
    y.length = 0;
    of = beside(&y, "", 0);
    ensure(plan_prints(&of, "verdict 1 0\n", NO_START),
           "no file and no plan");
}

/* A NUL byte is a byte of a word, and no end. */
static void nul_examples(const stored *y)
{
    static const char inside[] = "44 80 5\0006\n" BOTH_ROUTES "\0";
    planned_yard of = beside(y, inside, sizeof inside - 1);
    ensure(plan_prints(&of, "verdict 0 0\n" AGREES,
                       LINE("1") WORD_WRONG LINE("4") WORD_WRONG),
           "zero bytes in words");
}

/* A line with so many offsets, and after it a last word. */
static size_t long_line(char *plan, uint32_t offsets, const char *last)
{
    plan[0] = '\0';
    for (uint32_t i = 0; i < offsets; i++)
        strcat(plan, "7 ");
    strcat(plan, last);
    return strlen(plan);
}

static void long_line_examples(const stored *y)
{
    static char plan[2000], due[2000];
    planned_yard of = beside(y, plan, long_line(plan, 513, ""));
    ensure(plan_prints(&of, "verdict 0 0\n", LINE("1") TOO_MANY NO_START),
           "513 offsets are too many");
    of.plan_length = long_line(plan, 513, "x");
    ensure(plan_prints(&of, "verdict 0 0\n", LINE("1") WORD_WRONG NO_START),
           "a word that is no offset is said before that");
    of.plan_length = long_line(plan, 512, "#");
    ensure(plan_prints(&of, "verdict 0 0\nfrom 7 refused 13\n", ""),
           "512 offsets are a route");
    of.plan_length = long_line(plan, 512, "\n");
    memcpy(plan, "44 80", 5);
    strcpy(due, "verdict 0 0\nfrom 44 differs both 0 missing 1 extra 2\n"
                "missing ");
    strcat(due, plan);
    strcpy(due + strlen(due) - 2, "\nextra 44 80 56\nextra 44 80 68\n");
    ensure(plan_prints(&of, due, ""), "and stand as one");
}

/* A plan of the largest length, and one byte more. */
static void long_plan_examples(const stored *y)
{
    static char plan[IND_LARGEST_PLAN + 1];
    planned_yard of = beside(y, plan, IND_LARGEST_PLAN);
    memset(plan, '\n', sizeof plan);
    memcpy(plan + IND_LARGEST_PLAN - strlen(BOTH_ROUTES), BOTH_ROUTES,
           strlen(BOTH_ROUTES));
    ensure(plan_prints(&of, "verdict 0 0\n" AGREES, ""),
           "a plan of 1048576 bytes");
    of.plan_length++;
    ensure(plan_prints(&of, "verdict 0 0\n",
                       "yardplan: the plan is longer than 1048576 bytes\n"),
           "a longer one");
    memset(plan, 'x', sizeof plan);
    plan[IND_LARGEST_PLAN - 3] = '\n';
    of.plan_length = IND_LARGEST_PLAN;
    ensure(plan_prints(&of, "verdict 0 0\n",
                       LINE("1") WORD_WRONG LINE("2") WORD_WRONG NO_START),
           "a word as long as a plan");
}

#define EACH(examples) (examples), sizeof(examples) / sizeof *(examples)

void plan_examples(void)
{
    static stored y;
    make_y(&y, Y_SECOND_END);
    all_examples(&y, EACH(differences));
    all_examples(&y, EACH(from_lines));
    all_examples(&y, EACH(words));
    all_examples(&y, EACH(wrong_lines));
    asked_examples(&y);
    refused_examples();
    nul_examples(&y);
    long_line_examples(&y);
    long_plan_examples(&y);
}

/* The depot by a limit above 64: all that is planned is listed, and from its
 * first start there is one route more, of 104 objects. */
static int depot_has_more(planned_yard *of, uint32_t limit)
{
    enum { ROOM = 4000 };
    static const char first[] = "verdict 0 0\n"
                                "from 59 differs both 3 missing 0 extra 1\n"
                                "both 59 ";
    static const char last[] = " 131\n"
                               "from 71 agrees 2 routes\n"
                               "from 83 agrees 2 routes\n"
                               "from 95 agrees 2 routes\n";
    static char text[ROOM];
    FILE *output = tmpfile(), *said = tmpfile();
    size_t length, blanks = 0;
    if (output == NULL || said == NULL)
        return 0;
    of->limit = limit;
    print_plan(output, said, of);
    rewind(output);
    length = fread(text, 1, ROOM - 1, output);
    fclose(output);
    text[length] = '\0';
    for (const char *at = strstr(text, "extra 59 "); at != NULL && *at != '\n';
         at++)
        blanks += *at == ' ';
    return printed(said, "") && length > sizeof last
        && strncmp(text, first, strlen(first)) == 0
        && strcmp(text + length - strlen(last), last) == 0 && blanks == 104;
}

void depot_examples(const char *folder)
{
    enum { NAME_ROOM = 1000 };
    char file[NAME_ROOM], plan[NAME_ROOM];
    planned_yard of = { NULL, 0, NULL, 0, 64, ANY_BUDGET, ANY_ROOM, 0 };
    snprintf(file, NAME_ROOM, "%s/depot", folder);
    snprintf(plan, NAME_ROOM, "%s/depot.plan", folder);
    ensure(read_planned(file, plan, &of), "the depot and its plan are read");
    ensure(plan_prints(&of,
                       "verdict 0 0\n"
                       "from 59 agrees 3 routes\n"
                       "from 71 agrees 2 routes\n"
                       "from 83 agrees 2 routes\n"
                       "from 95 agrees 2 routes\n",
                       ""),
           "the depot by limit 64: as it was approved");
    ensure(depot_has_more(&of, 0), "by limit 0 a route more");
    ensure(depot_has_more(&of, 160), "and so by limit 160");
    of.flat = 1;
    ensure(depot_has_more(&of, 160), "and so by the second lister");
}
