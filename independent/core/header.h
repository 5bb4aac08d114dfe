/* 01, the questions about a file's header. */
#ifndef IND_HEADER_H
#define IND_HEADER_H

#include <stddef.h>

#include "answer.h"

/* A header: structure version, data version and station number. Of an X.2
 * also the station name, as its place in the file and its bytes without the
 * closing zeros; both are 0 for an X.1. */
typedef struct {
    ind_answer answer;
    uint32_t structure;
    uint32_t data;
    uint32_t station;
    uint32_t name;
    uint32_t name_size;
} ind_header;

/* Header of an X.1, and of an X.2. */
ind_header ind_header1(const uint8_t *file, size_t length);
ind_header ind_header2(const uint8_t *file, size_t length);

#endif
