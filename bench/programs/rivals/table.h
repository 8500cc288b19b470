#ifndef TABLE_H
#define TABLE_H

#include <stddef.h>
#include <stdint.h>

/* The checksum by a plain table of 256 entries, a rival of the proved one. */
void make_table(void);
uint32_t table_checksum(const uint8_t *bytes, size_t count);

#endif
