/* What 01 says that yardlist prints, for an X.2 on standard input. */
#include "list.h"

#include "answer.h"
#include "commands.h"

enum {
    LIST_LIMIT = 0,
    LIST_BUDGET = 65535,
    LIST_ROOM = 4096
};

static void list_from(FILE *output, const uint8_t *file, size_t length,
                      uint32_t start)
{
    static ind_walks walks;
    static uint16_t words[LIST_ROOM];
    ind_routes found = ind_routes_from(file, length, start, LIST_LIMIT,
                                       LIST_BUDGET, words, LIST_ROOM, &walks);
    if (found.answer.number != IND_ACCEPTED) {
        fprintf(output, "from %lu refused %lu\n", (unsigned long)start,
                (unsigned long)found.answer.number);
        return;
    }
    fprintf(output, "from %lu routes %lu walks %lu\n", (unsigned long)start,
            (unsigned long)found.routes, (unsigned long)found.walks);
    print_route_lines(output, words, found.routes);
}

void print_list(FILE *output, const uint8_t *file, size_t length)
{
    ind_layout layout;
    ind_answer verdict = ind_application(file, length, &layout);
    fprintf(output, "verdict %lu %lu\n", (unsigned long)verdict.number,
            (unsigned long)verdict.place);
    if (verdict.number != IND_ACCEPTED)
        return;
    for (uint32_t i = 0; i < layout.starts; i++)
        list_from(output, file, length,
                  layout.header + IND_BOUNDARY_SIZE * i);
}

/* One byte more than a file may have is read, so that a longer one is seen to
 * be too long. */
int command_list(void)
{
    static uint8_t file[IND_LARGEST_FILE + 1];
    size_t length = fread(file, 1, sizeof file, stdin);
    if (ferror(stdin)) {
        fputs("independent: standard input cannot be read\n", stderr);
        return RUN_BAD;
    }
    print_list(stdout, file, length);
    return RUN_WELL;
}
