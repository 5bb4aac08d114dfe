/* Sequences of calls of the loader (02, ticket 6). */
#ifndef LOAD_H
#define LOAD_H

#include "asked.h"
#include "random.h"

/* What is sent: a file, and the data version after it or before it, or a null
 * pointer where there is no other. Each has its opening fields and a
 * trailer. */
typedef struct {
    const stored *file;
    const stored *other;
} sent_files;

/* The room and the calls of a case: a transfer of the file, faithful or not,
 * and calls that go wrong between. */
void some_calls(source *from, const sent_files *files, asked *ask);

#endif
