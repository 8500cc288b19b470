#ifndef BITS_H
#define BITS_H

#include <stddef.h>
#include <stdint.h>

/* The checksum of 01 as it is defined, bit by bit: the rivals are held against it. */
uint32_t checksum_by_bits(const uint8_t *bytes, size_t count);

#endif
