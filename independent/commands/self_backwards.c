/* 02's ticket 13: what the check of routes read backwards passes and counts,
 * and that it notices each way in which answers can be wrong. */
#include "self.h"

#include <stdlib.h>
#include <string.h>

#include "answer.h"
#include "backwards.h"
#include "batch.h"
#include "commands.h"
#include "listings.h"
#include "unjudged.h"

enum {
    AMPLE_BUDGET = IND_LARGEST_BUDGET,
    AMPLE_ROOM = ROOM_LARGEST,
    /* Turnouts of the double crossover: both links of the first lead to the
     * third and the fourth. */
    C_FIRST = 95,
    C_SECOND = 119,
    C_FOURTH = 167,
    /* The joint of the dead end, and the end boundary there. */
    D_JOINT = 113,
    D_END = 53
};

/* ---- cases and answers, kept in files */

typedef struct {
    FILE *cases;
    FILE *answers;
} kept_pair;

static FILE *keep(void)
{
    FILE *kept = tmpfile();
    if (kept == NULL) {
        fputs("independent: nothing can be kept\n", stderr);
        exit(RUN_BAD);
    }
    return kept;
}

static kept_pair keep_pair(void)
{
    kept_pair kept;
    kept.cases = keep();
    kept.answers = keep();
    return kept;
}

/* What a boundary is asked with, and by which lister. */
typedef struct {
    uint32_t question;
    uint32_t start;
    uint32_t limit;
    uint32_t budget;
    uint32_t room;
} routes_asked;

static void put_case(FILE *cases, const stored *file, const routes_asked *by)
{
    static asked ask;
    ask.question = by->question;
    ask.numbers[0] = by->start;
    ask.numbers[1] = by->limit;
    ask.numbers[2] = by->budget;
    ask.numbers[3] = by->room;
    memcpy(&ask.files[0], file, sizeof ask.files[0]);
    ask.files[1].length = 0;
    write_case(cases, &ask);
}

/* A case for each boundary of a file, by the two listers in turn. */
static void put_boundaries(FILE *cases, const stored *file, uint32_t limit,
                           uint32_t question)
{
    ind_layout layout;
    ind_application_layout(file->bytes, file->length - IND_CHECKSUM_SIZE,
                           &layout);
    for (uint32_t i = 0; i < layout.starts + layout.ends; i++) {
        routes_asked by = { question, layout.header + IND_BOUNDARY_SIZE * i,
                            limit, AMPLE_BUDGET, AMPLE_ROOM };
        put_case(cases, file, &by);
        question = question == ASK_ROUTES ? ASK_ROUTES2 : ASK_ROUTES;
    }
}

/* What a case is answered without the verdict. */
static void print_unjudged(FILE *answers, const posed *ask)
{
    static ind_walks walks;
    static uint16_t words[ROOM_LARGEST];
    const uint32_t *n = ask->numbers;
    ind_routes found = ask->question == ASK_ROUTES
        ? unjudged_routes_from(ask->bytes[0], ask->length[0], n[0], n[1],
                               n[2], words, n[3], &walks)
        : unjudged_routes_flat(ask->bytes[0], ask->length[0], n[0], n[1],
                               n[2], words, n[3]);
    print_listing(answers, &found, words);
}

/* The answers to all cases that are kept. */
static void put_answers(const kept_pair *kept,
                        void (*print)(FILE *answers, const posed *ask))
{
    static asked ask;
    rewind(kept->cases);
    while (read_case(kept->cases, &ask) == READ_WHOLE) {
        posed given = pose(&ask);
        print(kept->answers, &given);
        putc('\n', kept->answers);
    }
}

/* Whether the check of what is kept ends so, prints this and says that. */
static int ends(const kept_pair *kept, int status, const char *due,
                const char *due_said)
{
    FILE *output = keep(), *said = keep();
    int right;
    rewind(kept->cases);
    rewind(kept->answers);
    right = check_backwards(kept->cases, kept->answers, output, said)
        == status;
    fclose(kept->cases);
    fclose(kept->answers);
    right &= printed(output, due);
    right &= printed(said, due_said);
    return right;
}

/* What is printed of so many yards once all is judged. */
#define COUNTED(yards, listings, pairs, back, wrong, unsaid)                 \
    "yards      " yards "\n"                                                 \
    "listings   " listings "\n"                                              \
    "pairs      " pairs "\n"                                                 \
    "routes     read_back:" back " not:" wrong " unsaid:" unsaid "\n"        \
    "backwards: " back " routes read back, " wrong " not\n"

/* The line of a route of yard 0 that is not read back. */
#define UNREAD(from, route, times, in)                                       \
    "yard 0, case " from ": " route ": its reverse is listed " times         \
    " times in case " in "\n"

/* ---- answers written by hand, to Y asked from 44, 56 and 68 */

#define ONE_ROUTE "answer 0 0\nroutes 1\nwords 4\nwalks 3\n"
#define TWO_ROUTES "answer 0 0\nroutes 2\nwords 8\nwalks 4\n"
#define FROM_44 TWO_ROUTES "44 80 56\n44 80 68\n\n"
#define FROM_56 ONE_ROUTE "56 80 44\n\n"
#define FROM_68 ONE_ROUTE "68 80 44\n\n"
#define OF_THREE(pairs, back, wrong)                                         \
    COUNTED("1", "0:3", pairs " unsaid:0", back, wrong, "0")

/* Answers, and how their check ends. */
typedef struct {
    const char *answers;
    int status;
    const char *printed;
    const char *said;
    const char *sentence;
} answers_example;

static const answers_example answers_of_y[] = {
    { FROM_44 FROM_56 FROM_68, RUN_WELL,
      OF_THREE("routes:4 none:2", "4", "0"), "", "Y's routes read back" },
    { ONE_ROUTE "44 80 56\n\n" FROM_56 FROM_68, RUN_BAD,
      UNREAD("2 from 68", "68 80 44", "0", "0 from 44")
      OF_THREE("routes:3 none:3", "2", "1"), "", "a route left out" },
    { FROM_44 FROM_56 "answer 0 0\nroutes 0\nwords 0\nwalks 3\n\n", RUN_BAD,
      UNREAD("0 from 44", "44 80 68", "0", "2 from 68")
      OF_THREE("routes:3 none:3", "2", "1"), "",
      "the only route of a boundary left out" },
    { TWO_ROUTES "44 80 56\n44 80 56\n\n" FROM_56 FROM_68, RUN_BAD,
      UNREAD("1 from 56", "56 80 44", "2", "0 from 44")
      UNREAD("2 from 68", "68 80 44", "0", "0 from 44")
      OF_THREE("routes:3 none:3", "2", "2"), "",
      "a route twice, in the place of another" },
    { "answer 0 0\nroutes 3\nwords 12\nwalks 4\n"
      "44 80 56\n44 80 68\n44 80 68\n\n" FROM_56 FROM_68, RUN_BAD,
      UNREAD("2 from 68", "68 80 44", "2", "0 from 44")
      OF_THREE("routes:4 none:2", "4", "1"), "", "a route twice" },
    { FROM_44 FROM_56
      "answer 0 0\nroutes 2\nwords 7\nwalks 4\n68 80 44\n68 44\n\n", RUN_BAD,
      UNREAD("2 from 68", "68 44", "0", "0 from 44")
      OF_THREE("routes:4 none:2", "4", "1"), "", "a route added" },
    { TWO_ROUTES "44 80 56\n44 81 68\n\n" FROM_56 FROM_68, RUN_BAD,
      UNREAD("0 from 44", "44 81 68", "0", "2 from 68")
      UNREAD("2 from 68", "68 80 44", "0", "0 from 44")
      OF_THREE("routes:4 none:2", "2", "2"), "",
      "an object of a route altered" },
    { "answer 0 0\nroutes 2\nwords 9\nwalks 4\n44 80 56\n44 44 80 68\n\n"
      FROM_56 FROM_68, RUN_BAD,
      UNREAD("0 from 44", "44 44 80 68", "0", "2 from 68")
      UNREAD("2 from 68", "68 80 44", "0", "0 from 44")
      OF_THREE("routes:4 none:2", "2", "2"), "",
      "a route with its first object twice" },
    { TWO_ROUTES "44 80 56\n44 80 69\n\n" FROM_56 FROM_68, RUN_BAD,
      "yard 0, case 0 from 44: 44 80 69: no case of the yard starts where it "
      "ends\n"
      UNREAD("2 from 68", "68 80 44", "0", "0 from 44")
      OF_THREE("routes:3 none:3", "2", "2"), "",
      "the last object of a route altered" },
    { FROM_44 ONE_ROUTE "57 80 44\n\n" FROM_68, RUN_BAD,
      UNREAD("0 from 44", "44 80 56", "0", "1 from 56")
      "yard 0, case 1 from 56: 57 80 44: it does not start there\n"
      OF_THREE("routes:4 none:2", "2", "2"), "",
      "the first object of a route altered" },
    { FROM_44 TWO_ROUTES "56 80 44\n68 80 44\n\n" FROM_68, RUN_BAD,
      "yard 0, case 1 from 56: 68 80 44: it does not start there\n"
      OF_THREE("routes:4 none:2", "4", "1"), "",
      "another boundary's route added" },
    { FROM_44 FROM_68 FROM_56, RUN_BAD,
      UNREAD("0 from 44", "44 80 56", "0", "1 from 56")
      UNREAD("0 from 44", "44 80 68", "0", "2 from 68")
      "yard 0, case 1 from 56: 68 80 44: it does not start there\n"
      "yard 0, case 2 from 68: 56 80 44: it does not start there\n"
      OF_THREE("routes:4 none:2", "0", "4"), "", "two answers exchanged" },
    { FROM_44 TWO_ROUTES "56 80 44\n56 80 68\n\n" FROM_68, RUN_BAD,
      UNREAD("1 from 56", "56 80 68", "0", "2 from 68")
      OF_THREE("routes:5 none:1", "4", "1"), "",
      "a turnout entered at a leg and left by the other leg, one way" },
    { FROM_44 ONE_ROUTE "56 80 68\n\n" ONE_ROUTE "68 80 56\n\n", RUN_BAD,
      UNREAD("0 from 44", "44 80 56", "0", "1 from 56")
      UNREAD("0 from 44", "44 80 68", "0", "2 from 68")
      OF_THREE("routes:4 none:2", "2", "2"), "",
      "left by the other leg in the place of the front" },
    { FROM_44 TWO_ROUTES "56 80 44\n56 80 68\n\n"
      TWO_ROUTES "68 80 44\n68 80 56\n\n", RUN_WELL,
      OF_THREE("routes:6 none:0", "6", "0"), "",
      "from leg to leg both ways: the ticket does not forbid it" },
    { "answer 14 0\n\n" FROM_56 FROM_68, RUN_WELL,
      COUNTED("1", "0:2 14:1", "routes:0 none:2 unsaid:4", "0", "0", "2"),
      "", "of routes to a refused listing nothing is said" },
    { "answer 14 0\n\n" "answer 15 0\n\n" FROM_68, RUN_WELL,
      COUNTED("1", "0:1 14:1 15:1", "routes:0 none:0 unsaid:6", "0", "0",
              "1"),
      "", "of a pair refused by 14 and 15 nothing is said" },
    { TWO_ROUTES "44 80 56\n44 81 68\n\n" FROM_56 "answer 13 0\n\n",
      RUN_WELL,
      COUNTED("1", "0:2 13:1", "routes:2 none:0 unsaid:4", "2", "0", "1"),
      "", "nor of what an altered route would be, read back" },
    { TWO_ROUTES "44 81 56\n44 80 68\n\n" FROM_56 "answer 13 0\n\n", RUN_BAD,
      UNREAD("0 from 44", "44 81 56", "0", "1 from 56")
      UNREAD("1 from 56", "56 80 44", "0", "0 from 44")
      COUNTED("1", "0:2 13:1", "routes:2 none:0 unsaid:4", "0", "2", "1"),
      "", "but of the two that are not refused" },
    { "answer 9 69\n\n" "answer 9 69\n\n" "answer 9 69\n\n", RUN_WELL,
      COUNTED("1", "9:3", "routes:0 none:0 unsaid:6", "0", "0", "0"), "",
      "nor of a file that is refused" }
};

/* ---- answers that cannot be read */

#define SAID(case, why) "independent: case " case ": " why "\n"
#define LINE_OF(case, line)                                                  \
    SAID(case, "line " line " of its answer cannot be read")

static const answers_example unread_answers[] = {
    { FROM_44 FROM_56, RUN_UNJUDGED, "",
      SAID("2", "there is no answer to it"), "the last answer missing" },
    { FROM_56 FROM_68, RUN_UNJUDGED, "",
      SAID("2", "there is no answer to it"), "the first answer missing" },
    { "", RUN_UNJUDGED, "", SAID("0", "there is no answer to it"),
      "no answers" },
    { FROM_44 FROM_56 ONE_ROUTE "68 80 44\n", RUN_UNJUDGED, "",
      SAID("2", "its answer has no end"), "no empty line at the end" },
    { FROM_44 FROM_56 ONE_ROUTE "68 80 4", RUN_UNJUDGED, "",
      SAID("2", "its answer has no end"), "the end inside a route" },
    { FROM_44 FROM_56 FROM_68 FROM_68, RUN_UNJUDGED, "",
      SAID("3", "there is an answer, and no such case"),
      "an answer too many" },
    { FROM_44 FROM_56 FROM_68 "\n", RUN_UNJUDGED, "",
      SAID("3", "there is an answer, and no such case"),
      "an empty line too many" },
    { FROM_44 "\n" FROM_68, RUN_UNJUDGED, "", LINE_OF("1", "1"),
      "an answer without a line" },
    { TWO_ROUTES "44 80 56\n\n" FROM_56 FROM_68, RUN_UNJUDGED, "",
      LINE_OF("0", "6"), "a route line taken out" },
    { FROM_44 FROM_56 ONE_ROUTE "68 80 44\n68 80 44\n\n", RUN_UNJUDGED, "",
      LINE_OF("2", "6"), "a route line added" },
    { FROM_44 FROM_56 ONE_ROUTE "68 44\n\n", RUN_UNJUDGED, "",
      LINE_OF("2", "3"), "another number of words than it says" },
    { FROM_44 FROM_56 "answer 14 0\n68 80 44\n\n", RUN_UNJUDGED, "",
      LINE_OF("2", "2"), "a route after a refusal" },
    { FROM_44 FROM_56 "answer 14 1\n\n", RUN_UNJUDGED, "", LINE_OF("2", "1"),
      "14 at another place than 0" },
    { FROM_44 FROM_56 "answer 11 0\n\n", RUN_UNJUDGED, "", LINE_OF("2", "1"),
      "a number that is not for routes" },
    { FROM_44 FROM_56 "answer 16 0\n\n", RUN_UNJUDGED, "", LINE_OF("2", "1"),
      "a number that there is not" },
    { FROM_44 FROM_56 "answer 0 0 0\n\n", RUN_UNJUDGED, "",
      LINE_OF("2", "1"), "a number too many" },
    { FROM_44 FROM_56 "answer 0 0\nroutes 0\nwords 0\n\n", RUN_UNJUDGED, "",
      LINE_OF("2", "4"), "no walks" },
    { FROM_44 FROM_56 ONE_ROUTE "68 x 44\n\n", RUN_UNJUDGED, "",
      LINE_OF("2", "5"), "a word that is no offset" },
    { FROM_44 FROM_56 ONE_ROUTE "68 80 44 \n\n", RUN_UNJUDGED, "",
      LINE_OF("2", "5"), "a blank too many" },
    { FROM_44 FROM_56 ONE_ROUTE "68  80 44\n\n", RUN_UNJUDGED, "",
      LINE_OF("2", "5"), "two blanks" },
    { FROM_44 FROM_56 ONE_ROUTE "68 080 44\n\n", RUN_UNJUDGED, "",
      LINE_OF("2", "5"), "a zero before an offset" },
    { FROM_44 FROM_56 ONE_ROUTE "68 65616 44\n\n", RUN_UNJUDGED, "",
      LINE_OF("2", "5"), "an offset and 65,536 more" },
    { FROM_44 FROM_56 ONE_ROUTE "68 -80 44\n\n", RUN_UNJUDGED, "",
      LINE_OF("2", "5"), "a sign" },
    { FROM_44 FROM_56 "answer 0 0\nroutes 1\nwords 2\nwalks 3\n68\n\n",
      RUN_UNJUDGED, "", LINE_OF("2", "5"), "a route of one object" }
};

/* The answers to Y, asked from 44, 56 and 68 by limit 8. */
static int y_ends(const answers_example *example)
{
    static stored y;
    kept_pair kept = keep_pair();
    make_y(&y, Y_SECOND_END);
    put_boundaries(kept.cases, &y, 8, ASK_ROUTES);
    fputs(example->answers, kept.answers);
    return ends(&kept, example->status, example->printed, example->said);
}

static void hand_examples(void)
{
    for (size_t i = 0; i < sizeof answers_of_y / sizeof *answers_of_y; i++)
        ensure(y_ends(&answers_of_y[i]), answers_of_y[i].sentence);
    for (size_t i = 0; i < sizeof unread_answers / sizeof *unread_answers;
         i++)
        ensure(y_ends(&unread_answers[i]), unread_answers[i].sentence);
}

/* The double crossover: one of its routes read back with its ends alone
 * exchanged. */
static void part_example(void)
{
    static stored file;
    kept_pair kept = keep_pair();
    make_crossover(&file);
    put_boundaries(kept.cases, &file, 0, ASK_ROUTES2);
    fputs("answer 0 0\nroutes 2\nwords 10\nwalks 6\n"
          "47 95 143 71\n47 95 167 83\n\n"
          "answer 0 0\nroutes 2\nwords 10\nwalks 6\n"
          "59 119 167 83\n59 119 143 71\n\n"
          "answer 0 0\nroutes 2\nwords 10\nwalks 6\n"
          "71 95 143 47\n71 143 119 59\n\n"
          "answer 0 0\nroutes 2\nwords 10\nwalks 6\n"
          "83 167 119 59\n83 167 95 47\n\n",
          kept.answers);
    ensure(ends(&kept, RUN_BAD,
                UNREAD("0 from 47", "47 95 143 71", "0", "2 from 71")
                UNREAD("2 from 71", "71 95 143 47", "0", "0 from 47")
                COUNTED("1", "0:4", "routes:8 none:4 unsaid:0", "6", "2",
                        "0"),
                ""),
           "a route reversed only in part");
}

/* ---- cases that cannot be judged */

static void case_examples(void)
{
    static stored y;
    routes_asked by = { ASK_RECORD, Y_START, 8, AMPLE_BUDGET, AMPLE_ROOM };
    kept_pair kept = keep_pair();
    ensure(ends(&kept, RUN_UNJUDGED, "", SAID("0", "there are no cases")),
           "no cases");
    make_y(&y, Y_SECOND_END);
    kept = keep_pair();
    put_case(kept.cases, &y, &by);
    fputs(FROM_44, kept.answers);
    ensure(ends(&kept, RUN_UNJUDGED, "",
                SAID("0", "it does not ask for routes")),
           "a case of another question");
    kept = keep_pair();
    put_boundaries(kept.cases, &y, 8, ASK_ROUTES);
    fputs("\010\054", kept.cases);
    fputs(FROM_44 FROM_56 FROM_68, kept.answers);
    ensure(ends(&kept, RUN_UNJUDGED, "",
                SAID("3", "the cases end inside it")),
           "the end inside a case");
    kept = keep_pair();
    put_boundaries(kept.cases, &y, 8, ASK_ROUTES);
    putc(QUESTIONS, kept.cases);
    fputs(FROM_44 FROM_56 FROM_68, kept.answers);
    ensure(ends(&kept, RUN_UNJUDGED, "",
                SAID("3", "it asks an unknown question")),
           "an unknown question");
}

/* ---- the program's own answers */

/* A yard by a limit, and what is printed once its routes are read back. */
typedef struct {
    void (*make)(stored *file);
    uint32_t limit;
    const char *printed;
    const char *sentence;
} yard_example;

static const yard_example yards[] = {
    { make_two, 2, COUNTED("1", "0:2", "routes:2 none:0 unsaid:0", "2", "0",
                           "0"),
      "two boundaries alone, backwards" },
    { make_g, 0, COUNTED("1", "0:2", "routes:2 none:0 unsaid:0", "2", "0",
                         "0"),
      "a line over a group of three balises, backwards" },
    { make_loop, 0, COUNTED("1", "0:2", "routes:2 none:0 unsaid:0", "2", "0",
                            "0"),
      "past a loop, backwards" },
    { make_dead_end, 0, COUNTED("1", "0:2", "routes:2 none:0 unsaid:0", "2",
                                "0", "0"),
      "past a dead end, backwards" },
    { make_crossover, 4, COUNTED("1", "0:4", "routes:8 none:4 unsaid:0", "8",
                                 "0", "0"),
      "a double crossover, backwards" },
    { make_crossover, 3, COUNTED("1", "0:4", "routes:0 none:12 unsaid:0", "0",
                                 "0", "0"),
      "a double crossover by limit 3: no route either way" },
    { make_tree, 7, COUNTED("1", "0:9", "routes:16 none:56 unsaid:0", "16",
                            "0", "0"),
      "a tree, backwards" },
    { make_tree, 6, COUNTED("1", "0:9", "routes:8 none:64 unsaid:0", "8",
                            "0", "0"),
      "a tree by limit 6: the shorter ways, backwards" },
    { make_deep, 512, COUNTED("1", "0:7", "routes:12 none:30 unsaid:0", "12",
                              "0", "0"),
      "ways of up to 512 objects, backwards" },
    { make_deep, 511, COUNTED("1", "0:7", "routes:10 none:32 unsaid:0", "10",
                              "0", "0"),
      "the same by limit 511, backwards" },
    { make_deep, 0, COUNTED("1", "0:7", "routes:2 none:40 unsaid:0", "2",
                            "0", "0"),
      "the same by limit 0, backwards" }
};

/* Every boundary by the listers in turn, the one or the other first; without
 * the verdict there is no other answer. */
static int yard_reads_back(const yard_example *example, uint32_t question,
                           void (*print)(FILE *answers, const posed *ask))
{
    static stored file;
    kept_pair kept = keep_pair();
    example->make(&file);
    put_boundaries(kept.cases, &file, example->limit, question);
    put_answers(&kept, print);
    return ends(&kept, RUN_WELL, example->printed, "");
}

static void yard_examples(void)
{
    for (size_t i = 0; i < sizeof yards / sizeof *yards; i++)
        ensure(yard_reads_back(&yards[i], ASK_ROUTES, print_answer)
                   && yard_reads_back(&yards[i], ASK_ROUTES2, print_answer)
                   && yard_reads_back(&yards[i], ASK_ROUTES, print_unjudged)
                   && yard_reads_back(&yards[i], ASK_ROUTES2,
                                      print_unjudged),
               yards[i].sentence);
}

/* Several yards in a row, and boundaries that are asked more than once. */
static void row_examples(void)
{
    static stored y, two, newer;
    kept_pair kept = keep_pair();
    make_y(&y, Y_SECOND_END);
    make_two(&two);
    make_y(&newer, Y_SECOND_END);
    put_opening(newer.bytes, IND_X2_TYPE, 2, 1);
    seal(&newer);
    put_boundaries(kept.cases, &y, 3, ASK_ROUTES);
    put_boundaries(kept.cases, &y, 2, ASK_ROUTES2);
    put_boundaries(kept.cases, &two, 2, ASK_ROUTES);
    put_boundaries(kept.cases, &y, 3, ASK_ROUTES2);
    put_boundaries(kept.cases, &newer, 3, ASK_ROUTES);
    put_answers(&kept, print_answer);
    ensure(ends(&kept, RUN_WELL,
                COUNTED("5", "0:14", "routes:14 none:12 unsaid:0", "14", "0",
                        "0"),
                ""),
           "another limit or another file is another yard");
    kept = keep_pair();
    put_boundaries(kept.cases, &y, 0, ASK_ROUTES);
    put_boundaries(kept.cases, &y, 0, ASK_ROUTES2);
    put_answers(&kept, print_answer);
    ensure(ends(&kept, RUN_WELL,
                COUNTED("1", "0:6", "routes:16 none:14 unsaid:0", "16", "0",
                        "0"),
                ""),
           "each boundary by both listers: both read back");
}

/* Y asked with too little: what each answers is the program's own. */
static void refused_example(void)
{
    static const routes_asked by[] = {
        { ASK_ROUTES, Y_START, 8, 3, AMPLE_ROOM },
        { ASK_ROUTES2, Y_FIRST_END, 8, AMPLE_BUDGET, 3 },
        { ASK_ROUTES, Y_SECOND_END, 8, 3, 4 }
    };
    static stored y;
    kept_pair kept = keep_pair();
    make_y(&y, Y_SECOND_END);
    for (size_t i = 0; i < sizeof by / sizeof *by; i++)
        put_case(kept.cases, &y, &by[i]);
    put_answers(&kept, print_answer);
    ensure(ends(&kept, RUN_WELL,
                COUNTED("1", "0:1 14:1 15:1", "routes:0 none:0 unsaid:6", "0",
                        "0", "1"),
                ""),
           "budget 3 and room 3: 14, 15, and nothing is said");
}

/* ---- what the listers would list of files that are refused */

/* A yard with a link that is not right, the verdict on it, and what is printed
 * of the routes that the listers find in it. */
typedef struct {
    void (*make)(stored *file);
    uint32_t number;
    uint32_t place;
    const char *printed;
    const char *sentence;
} refused_yard;

/* The first turnout's reverse leg names the second turnout, which names
 * others; what it named before has no link in its place. */
static void make_unreturned(stored *file)
{
    make_crossover(file);
    put_two(file->bytes, C_FIRST + IND_TURNOUT_REVERSE, C_SECOND);
    put_two(file->bytes, C_FOURTH + IND_TURNOUT_REVERSE, 0);
    seal(file);
}

static void make_no_reverse(stored *file)
{
    make_y(file, 0);
}

static void make_doubled(stored *file)
{
    make_y(file, Y_FIRST_END);
}

/* The joint at which the way ended leads to the end boundary. */
static void make_joint_unreturned(stored *file)
{
    make_dead_end(file);
    put_two(file->bytes, D_JOINT + IND_JOINT_PREVIOUS, D_END);
    seal(file);
}

static void make_member_named(stored *file)
{
    make_g(file);
    put_two(file->bytes, G_START + IND_BOUNDARY_LINK, G_THREE);
    seal(file);
}

static const refused_yard refused_yards[] = {
    { make_unreturned, 9, C_FIRST + IND_TURNOUT_REVERSE,
      UNREAD("0 from 47", "47 95 119 59", "0", "1 from 59")
      COUNTED("1", "0:4", "routes:7 none:5 unsaid:0", "6", "1", "0"),
      "a turnout's link that is not returned" },
    { make_no_reverse, 9, Y_SECOND_END + IND_BOUNDARY_LINK,
      UNREAD("2 from 68", "68 80 44", "0", "0 from 44")
      COUNTED("1", "0:3", "routes:3 none:3 unsaid:0", "2", "1", "0"),
      "a boundary's link that is not returned" },
    { make_doubled, 9, Y_SECOND_END + IND_BOUNDARY_LINK,
      UNREAD("1 from 56", "56 80 44", "2", "0 from 44")
      UNREAD("2 from 68", "68 80 44", "0", "0 from 44")
      COUNTED("1", "0:3", "routes:3 none:3 unsaid:0", "2", "2", "0"),
      "a turnout's doubled link" },
    { make_joint_unreturned, 9, D_JOINT + IND_JOINT_PREVIOUS,
      UNREAD("0 from 41", "41 65 113 53", "0", "1 from 53")
      COUNTED("1", "0:2", "routes:2 none:0 unsaid:0", "2", "1", "0"),
      "a joint's link that is not returned" },
    { make_member_named, 8, G_START + IND_BOUNDARY_LINK,
      UNREAD("0 from 41", "41 81 53", "0", "1 from 53")
      UNREAD("1 from 53", "53 65 41", "0", "0 from 41")
      COUNTED("1", "0:2", "routes:2 none:0 unsaid:0", "0", "2", "0"),
      "a boundary's link to number 3 of a group" }
};

/* The verdict refuses the yard; without it the listers, in turn, list what is
 * not read back. */
static int refused_noticed(const refused_yard *example, uint32_t question)
{
    static stored file;
    kept_pair kept = keep_pair();
    ind_answer verdict;
    example->make(&file);
    verdict = ind_x2(file.bytes, file.length);
    put_boundaries(kept.cases, &file, 0, question);
    put_answers(&kept, print_unjudged);
    return ends(&kept, RUN_BAD, example->printed, "")
        && verdict.number == example->number
        && verdict.place == example->place;
}

static void refused_yard_examples(void)
{
    for (size_t i = 0; i < sizeof refused_yards / sizeof *refused_yards; i++)
        ensure(refused_noticed(&refused_yards[i], ASK_ROUTES)
                   && refused_noticed(&refused_yards[i], ASK_ROUTES2),
               refused_yards[i].sentence);
}

void backwards_examples(void)
{
    hand_examples();
    part_example();
    case_examples();
    yard_examples();
    row_examples();
    refused_example();
    refused_yard_examples();
}
