/* 01, 'Verdicts and their order': what a question is answered with. */
#ifndef IND_ANSWER_H
#define IND_ANSWER_H

#include <stdint.h>

/* The numbers of 01's table. */
enum {
    IND_ACCEPTED = 0,
    IND_LENGTH = 1,
    IND_CHECKSUM = 2,
    IND_FILE_TYPE = 3,
    IND_STRUCTURE_VERSION = 4,
    IND_FIELD = 5,
    IND_LAYOUT = 6,
    IND_AGREEMENT = 7,
    IND_LINK_TARGET = 8,
    IND_LINK_RETURN = 9,
    IND_STATION = 10,
    IND_NO_TRACK = 11,
    IND_BEYOND_END = 12,
    IND_OUT_OF_RANGE = 13,
    IND_STEPS = 14,
    IND_ROOM = 15,
    /* Of a transfer, by 02's ticket 6; 16 is for a file that is not read here.
     */
    IND_IDENTITY = 17,
    IND_ORDER = 18,
    IND_PIECE = 19,
    IND_NUMBERS
};

/* The files of a pair, as an answer names them. */
enum {
    IND_NO_FILE = 0,
    IND_FILE_X1 = 1,
    IND_FILE_X2 = 2
};

/* Number, place and, for the pair alone, the file. */
typedef struct {
    uint32_t number;
    uint32_t place;
    uint32_t file;
} ind_answer;

/* No field is at fault. */
#define IND_NO_FAULT ((uint32_t)0xFFFFFFFF)

/* An answer about one file. */
static inline ind_answer ind_says(uint32_t number, uint32_t place)
{
    ind_answer answer = { number, place, IND_NO_FILE };
    return answer;
}

/* Accepted, or the number at the faulty place. */
static inline ind_answer ind_unless(uint32_t fault, uint32_t number)
{
    return fault == IND_NO_FAULT ? ind_says(IND_ACCEPTED, 0)
                                 : ind_says(number, fault);
}

#endif
