/* The list of an X.2's routes. */
#ifndef LIST_H
#define LIST_H

#include <stddef.h>
#include <stdint.h>
#include <stdio.h>

/* What yardlist prints of an X.2. */
void print_list(FILE *output, const uint8_t *file, size_t length);

#endif
