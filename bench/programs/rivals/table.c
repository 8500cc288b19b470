#include "table.h"

static uint32_t table[256];

void make_table(void)
{
    for (uint32_t n = 0; n < 256; n++) {
        table[n] = n;
        for (int bit = 0; bit < 8; bit++)
            table[n] = (table[n] >> 1) ^ ((table[n] & 1) ? 0xEDB88320u : 0);
    }
}

uint32_t table_checksum(const uint8_t *bytes, size_t count)
{
    uint32_t sum = 0xFFFFFFFFu;
    for (size_t i = 0; i < count; i++)
        sum = (sum >> 8) ^ table[(sum ^ bytes[i]) & 0xFF];
    return sum;
}
