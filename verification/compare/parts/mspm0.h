#ifndef MSPM0_NUMBERS_H
#define MSPM0_NUMBERS_H

/* The numbers of the MSPM0 that the comparison's inputs are chosen by (document 01, T-05, T-09). */

#define PART_NAME "MSPM0"

enum { SECTOR = 1024, MAIN_LARGEST = 65536, SETTINGS_BYTES = 1024, WINDOW_BYTES = 3456 };
enum { WORD = 8, VERIFY_LEAST = 1024, VERSION_BYTES = 4, PROTECTION_BYTES = 8, LAST_RATE = 9 };
enum { BLANK_FORM = 1, HAS_FORM_1 = 1, IS_AM13E230X = 0 };

#define SETTINGS_START 0x41C00000u

/* MAIN sizes that are taken often, and sizes that are mostly outside the rule. */
#define COMMON_MAIN_SIZES {1024, 2048, 4096, 4096, 8192}
enum { COMMON_PERCENT = 58, LARGEST_PERCENT = 12 };
#define ODD_MAIN_SIZES {0, 1, 512, 1023, 1025, 1536, 4095, 4097, 65535, 65537, 66560, 67 * 1024}
#define ODD_SETTINGS_SIZES {0, 1, 126, 198, 1020, 1023, 1025, 2048}

/* Sizes of the other part, and where its settings are. */
enum { OTHER_SETTINGS_BYTES = 2048, OTHER_RECORD_BYTES = 118, OTHER_FIELDS_BYTES = 164 };
#define OTHER_SETTINGS_START 0x60100800u

/* Numbers in what is told of a run. */
#define SECTOR_TEXT "1,024"
#define BELOW_SECTOR_TEXT "1,023"
#define LARGEST_TEXT "65,536"
#define OVER_LARGEST_TEXT "65,537"
#define FILLER_TEXT "198"
#define VERSION_TEXT "4"
#define VERSION_CUT_TEXT "size - 3 to size - 1"
#define VERSION_TOP_TEXT "0xFFFFFFFC"

#endif
