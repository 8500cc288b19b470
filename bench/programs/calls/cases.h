#ifndef CASES_H
#define CASES_H

#include <stdbool.h>
#include <stddef.h>
#include <stdint.h>

/*
 * What is timed: one call of one function, on a board and with a packet that are made new for it. With AM13E230X defined it is
 * a board of that part.
 */

#ifdef AM13E230X
enum { MAIN_MOST = 524288, SETTINGS_SIZE = 2048, RECORD_SIZE = 118, FIELDS_SIZE = 164, PROTECTION_SIZE = 32 };
enum { WINDOW_SIZE = 1 }; /* it has none: a byte that no function is lent */
#define SETTINGS_AT 0x60100800u
#else
enum { MAIN_MOST = 65536, SETTINGS_SIZE = 1024, RECORD_SIZE = 94, FIELDS_SIZE = 140, PROTECTION_SIZE = 8 };
enum { WINDOW_SIZE = 3456 };
#define SETTINGS_AT 0x41C00000u
#endif

enum { COUNTS_SIZE = 8, DAMAGED_AT = 6 };
enum { REPLY_SIZE = 1729, PACKET_MOST = 1728, PASSWORD_SIZE = 32, DETAILED_ERROR_REPLY = 12 };
enum { KIB = 1024, MESSAGE_REPLY = 10, SUM_REPLY = 13, READ_BACK_FRAME = 9 };

#define WINDOW_AT 0x20000160u

/* The first of each is what most cases have. */
enum function { CALL, START, SETTINGS_READ, SETTINGS_WRITE, SETTINGS_MOVES, SETTINGS_MEND, RATE };
enum state { UNLOCKED, LOCKED, TWO_WRONG, IN_DETECT, ASLEEP, ENDED, NOT_VALID };
enum preset { WRITTEN, BLANK, DAMAGED_IMAGE, HALF_PROTECTED, ALL_PROTECTED, ALERT_RESETS, RESET_WANTS_PASSWORD, FORM_2 };
enum body { NO_BODY, RATE_ID, TWO_NUMBERS, DATA, PASSWORD, WRONG_PASSWORD, RESET_PASSWORD };
enum damage { WHOLE, WRONG_CHECKSUM, WRONG_HEADER };

struct bench_case {
    const char *name, *detail;
    size_t bytes;     /* of flash, packet or image that the call is about */
    bool only_a_size; /* of the table over sizes alone */

    enum function function;
    enum state state;
    enum preset preset;
    size_t main_size, window_size, reply_size; /* 0: the largest MAIN, the whole window, a reply area as large as it must be */

    uint8_t code; /* of the command; 0: an empty packet */
    enum body body;
    uint32_t first, second; /* numbers of the body; `second` is the size of data, whose places are blank before the call */
    enum damage damage;

    uint64_t answer; /* what the call must answer */
    uint8_t message; /* and the message that it sends, where the reply is one */
};

#define REFUSED(number) ((uint64_t)(number) << 56)

/* Those of a part stand in a folder of their own, bench/programs/cases_PART. */
extern const struct bench_case bench_cases[];
extern const size_t bench_case_count;

/* An Unlock whose password is wrong in one byte, the one at the place. */
struct bench_case wrong_at(uint32_t place);

size_t main_size_of(const struct bench_case *bench_case);
size_t window_size_of(const struct bench_case *bench_case);
size_t reply_size_of(const struct bench_case *bench_case);

/* Each area begins as a cache line does, so that the sides do not differ in where theirs lie. */
#define AREA _Alignas(64) uint8_t

struct board {
    AREA main_flash[MAIN_MOST];
    AREA settings[SETTINGS_SIZE];
    AREA window[WINDOW_SIZE];
    AREA fields[FIELDS_SIZE];
    AREA record[RECORD_SIZE];
    AREA packet[PACKET_MOST];
    size_t packet_size;
};

/* The board of a case before the call, and the packet. */
void make_board(const struct bench_case *bench_case, struct board *board);

#endif
