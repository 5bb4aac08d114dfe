/* A file in pieces, as it is sent and as it is loaded. A sequence of pieces has
 * each after its own length in four bytes, low byte first. */
#ifndef LOAD_COMMAND_H
#define LOAD_COMMAND_H

#include <stdio.h>

#include "core/core.h"

/* Prints a file's pieces, of at most so many bytes of it each, with the
 * identity that its own bytes give. */
void print_pieces(FILE *output, const uint8_t *file, uint32_t length,
                  uint32_t most);

/* Opens a transfer, hands on every piece of a sequence and finishes. The file
 * is printed where finishing accepts it; then 1. Says what is refused, and at
 * last how much was taken. */
int load_pieces(FILE *input, FILE *output, FILE *said,
                const uint64_t identity[IND_IDENTITY_NUMBERS]);

#endif
