#ifndef AM13E230X_H
#define AM13E230X_H

#include "form.h"

#include <stddef.h>

/* The numbers of the AM13E230x: those of T-10, in its order. What T-10 does not name is as on the MSPM0. */

/* "Sectors are 2,048 bytes; settings are one such sector at 0x60100800" */
enum { SECTOR_SIZE = 2048, SETTINGS_SIZE = 2048 };
#define SETTINGS_START 0x60100800u

/* "blank is all of it 0xFF and counts as form 2" */
enum { BLANK_FORM = 2 };

/* "MAIN is 2,048 bytes to 512 KiB, a multiple of 2,048." */
enum { MAIN_LARGEST = 524288 };

/*
 * "Program wants multiples of 16, Verify takes 2,048 to 524,288 bytes, the version has 8 bytes at a multiple of 8, and rate
 * id 0x10 means 4000000." More than 524,288 bytes lie in no region (T-07).
 */
enum { PROGRAM_UNIT = 16, VERIFY_LEAST = 2048, VERSION_SIZE = 8, LAST_RATE = 0x10 };

/* "The protection body becomes 32 bytes for this part, so the name ends at 222." */
enum { PROTECTION_SIZE = 32 };

/* "with our form 2, no form 1, in its first 1,024 bytes and 0xFF after" */
static const struct form form_2 = {2,
                                   7,
                                   60,
                                   222,
                                   {{1, 60, 32, 0},
                                    {2, 92, 16, 0},
                                    {3, 108, 6, 0},
                                    {4, 114, 8, 0},
                                    {5, 122, 4, 0},
                                    {6, 126, 32, 0},
                                    {7, 158, 64, 0}}};

static const struct form *const forms[] = {&form_2, NULL};

/* "there is no window of T-05": one of no bytes */
#define WINDOW_START 0x20000160u
enum { WINDOW_SIZE = 0 };

#endif
