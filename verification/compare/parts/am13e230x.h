#ifndef AM13E230X_NUMBERS_H
#define AM13E230X_NUMBERS_H

/* The numbers of the AM13E230x that the comparison's inputs are chosen by (T-10). */

#define PART_NAME "AM13E230x"

enum { SECTOR = 2048, MAIN_LARGEST = 524288, SETTINGS_BYTES = 2048, WINDOW_BYTES = 0 };
enum { WORD = 16, VERIFY_LEAST = 2048, VERSION_BYTES = 8, PROTECTION_BYTES = 32, LAST_RATE = 0x10 };
enum { BLANK_FORM = 2, HAS_FORM_1 = 0, IS_AM13E230X = 1 };

#define SETTINGS_START 0x60100800u

/* MAIN sizes that are taken often, a third of them of more than 64 sectors; then such as are mostly outside. */
#define COMMON_MAIN_SIZES \
    {2048, 4096, 4096, 4096, 8192, 8192, 8192, 8192, 16384, 16384, 65 * 2048, 65 * 2048, 66 * 2048, 66 * 2048, 66 * 2048}
enum { COMMON_PERCENT = 95, LARGEST_PERCENT = 4 };
#define ODD_MAIN_SIZES \
    {0, 1, 1024, 1024, 1024, 2047, 2047, 2049, 2049, 3072, 3072, 3072, 5120, 5120, 8191, 8193, 65537, 66560, 524289, 526336}
#define ODD_SETTINGS_SIZES {0, 1, 222, 1020, 1024, 2047, 2049, 2560}

/* Sizes of the other part, and where its settings are. */
enum { OTHER_SETTINGS_BYTES = 1024, OTHER_RECORD_BYTES = 94, OTHER_FIELDS_BYTES = 140 };
#define OTHER_SETTINGS_START 0x41C00000u

/* Numbers in what is told of a run. */
#define SECTOR_TEXT "2,048"
#define BELOW_SECTOR_TEXT "2,047"
#define LARGEST_TEXT "524,288"
#define OVER_LARGEST_TEXT "524,289"
#define FILLER_TEXT "222"
#define VERSION_TEXT "8"
#define VERSION_CUT_TEXT "size - 7 to size - 1"
#define VERSION_TOP_TEXT "0xFFFFFFF8"

#endif
