#ifndef WIDE_H
#define WIDE_H

#include <stdbool.h>

/*
 * Lends each area with 2^8, 2^16 and 2^32 bytes more than it should have: a loader that cuts a size to fewer bits takes
 * it for the right one.
 */
bool wide_sizes_agree(void);

#endif
