/* A number on a command line. */
#include "number.h"

#include <errno.h>
#include <stdlib.h>

int read_number(const char *word, uint64_t *number)
{
    char *rest;
    errno = 0;
    *number = strtoull(word, &rest, 10);
    return word[0] >= '0' && word[0] <= '9' && *rest == '\0' && errno == 0;
}
