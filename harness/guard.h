/* What the parts of the guarded run have in common. */
#ifndef GUARD_H
#define GUARD_H

#include "core/core.h"
#include "generator/asked.h"
#include "generator/random.h"
#include "lent.h"

/* What a run has seen. Calls of the loader are counted by their kind. */
typedef struct {
    uint64_t calls;
    uint64_t answers[QUESTIONS][IND_NUMBERS];
    uint64_t load_answers[CALL_KINDS][IND_NUMBERS];
    uint64_t checksums;
    uint64_t with_null;
    uint64_t differ;
    uint64_t changed;
} figures;

/* A call is under way: the one that answers a question, of the loader that of a
 * kind, with its buffers lent in one way; and is no more. A signal is told
 * with it. */
void begin_call(uint32_t question, uint32_t kind, way lent);
void end_call(void);

/* Says that this is the first defect, and in which case and how lent, if none
 * was told before; then 1. */
int tell_defect(const char *what);

/* All of an answer, one side's. */
void tell_answer(const char *side, uint64_t answer);

/* Neither memcmp nor memcpy may be given a null pointer. */
int alike(const uint8_t *bytes, const uint8_t *others, uint32_t length);
void copy(uint8_t *to, const uint8_t *bytes, uint32_t length);

/* The rooms that calls of the loader are lent from. */
void make_load_rooms(void);

/* Every call of a case of load, each from where the one before it left off and
 * with its buffers lent in each way; now and then with another state, or with
 * numbers of more than 32 bits. Where bits are to be flipped, some of the
 * pieces have some. */
void run_loads(figures *seen, source *from, const asked *ask, int flipped);

#endif
