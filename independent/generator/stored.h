/* A file that is made: its bytes, numbers put into them, and its checksum. */
#ifndef STORED_H
#define STORED_H

#include <stdint.h>

enum {
    /* A little over the largest file, so that over-long ones can be made. */
    FILE_ROOM = 65535 + 300
};

typedef struct {
    uint32_t length;
    uint8_t bytes[FILE_ROOM];
} stored;

/* The low bytes of a number at a place, the lowest first. */
void put_two(uint8_t *bytes, uint32_t place, uint32_t value);
void put_three(uint8_t *bytes, uint32_t place, uint32_t value);
void put_four(uint8_t *bytes, uint32_t place, uint32_t value);

/* The fields that both headers begin with, in structure version 1. */
void put_opening(uint8_t *bytes, uint8_t type, uint32_t data_version,
                 uint32_t station);

/* The group byte of a balise: its place in the group, and the count. */
void put_group(uint8_t *balise, uint32_t place, uint32_t count);

/* Writes the right checksum into the last four bytes, if there are four. */
void seal(stored *file);

#endif
