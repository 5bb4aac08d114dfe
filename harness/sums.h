/* The checksum as plain C loops over tables that are made once, to compare
 * speed with. */
#ifndef SUMS_H
#define SUMS_H

#include <stddef.h>
#include <stdint.h>

/* Makes the tables. */
void make_sum_tables(void);

/* One byte and one table at a time. */
uint32_t sum_by_table(const uint8_t *bytes, size_t length);

/* Eight bytes and eight tables at a time, and sixteen. */
uint32_t sum_by_eight(const uint8_t *bytes, size_t length);
uint32_t sum_by_sixteen(const uint8_t *bytes, size_t length);

#endif
