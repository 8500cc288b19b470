#ifndef MSPM0_H
#define MSPM0_H

#include "form.h"

#include <stddef.h>

/* The numbers of the MSPM0: those of document 01, "Sizes", and of the requests that name them. */

#define SETTINGS_START 0x41C00000u
#define WINDOW_START 0x20000160u /* T-05 */

enum { SECTOR_SIZE = 1024, MAIN_LARGEST = 65536, SETTINGS_SIZE = 1024, WINDOW_SIZE = 3456 };
enum { PROGRAM_UNIT = 8, VERIFY_LEAST = 1024, VERSION_SIZE = 4, PROTECTION_SIZE = 8 };
enum { LAST_RATE = 9 };

static const struct form form_1 = {
    1, 6, 52, 126, {{1, 52, 32, 0}, {2, 84, 16, 0}, {3, 100, 6, 0}, {4, 106, 8, 0}, {5, 114, 4, 0}, {6, 118, 8, 0}}};

/* T-09: "Its table ends at 60, the bodies keep their order, the name comes last and ends at 198" */
static const struct form form_2 = {2,
                                   7,
                                   60,
                                   198,
                                   {{1, 60, 32, 0},
                                    {2, 92, 16, 0},
                                    {3, 108, 6, 0},
                                    {4, 114, 8, 0},
                                    {5, 122, 4, 0},
                                    {6, 126, 8, 0},
                                    {7, 134, 64, 0}}};

static const struct form *const forms[] = {&form_1, &form_2, NULL};

enum { BLANK_FORM = 1 }; /* T-09: "blank counts as form 1" */

#endif
