#ifndef FORM_H
#define FORM_H

#include <stdint.h>

/* How a settings image is laid out: its number and count of entries, the entries, where the bodies begin, where 0xFF does. */

enum { ENTRY_LARGEST = 7, ENTRY_FIELDS = 4 };

struct form {
    uint16_t number, entry_count, bodies_at, filler_at;
    uint16_t entries[ENTRY_LARGEST][ENTRY_FIELDS]; /* kind, offset, length, zero */
};

#endif
