/* Memory to lend with an unreadable page on both sides. */
#define _GNU_SOURCE
#include "lent.h"

#include <stdio.h>
#include <stdlib.h>
#include <sys/mman.h>
#include <unistd.h>

room make_room(size_t bytes)
{
    size_t page = (size_t)sysconf(_SC_PAGESIZE);
    size_t readable = (bytes + page - 1) / page * page;
    uint8_t *whole = mmap(NULL, readable + 2 * page, PROT_NONE,
                          MAP_PRIVATE | MAP_ANONYMOUS, -1, 0);
    if (whole == MAP_FAILED
        || mprotect(whole + page, readable, PROT_READ | PROT_WRITE) != 0) {
        fputs("harness: no memory to lend\n", stderr);
        exit(1);
    }
    return (room){ whole + page, whole + page + readable };
}

uint8_t *lend(room of, size_t bytes, way lent)
{
    if (lent == NULL_FOR_NOTHING && bytes == 0)
        return NULL;
    return lent == PAGE_BEFORE ? of.first : of.last - bytes;
}
