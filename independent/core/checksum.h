/* 01, 'Bytes and checksum': the checksum of 6.6. */
#ifndef IND_CHECKSUM_H
#define IND_CHECKSUM_H

#include <stddef.h>
#include <stdint.h>

/* The checksum of all bytes given. */
uint32_t ind_checksum(const uint8_t *bytes, size_t length);

#endif
