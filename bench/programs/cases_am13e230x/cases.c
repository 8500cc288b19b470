#include "cases.h"

enum { INFO_REPLY = 37 };

const struct bench_case bench_cases[] = {
    {"AM13E230x: Connect", "in command", .code = 0x12, .answer = 1},
    {"AM13E230x: Info", "", .code = 0x19, .answer = INFO_REPLY},
    {"AM13E230x: Change rate", "", .code = 0x52, .body = RATE_ID, .first = 0x10, .answer = 1},
    {"AM13E230x: Unlock", "right", .state = LOCKED, .code = 0x21, .body = PASSWORD, .answer = MESSAGE_REPLY},
    {"AM13E230x: Unlock", "wrong", .state = LOCKED, .code = 0x21, .body = WRONG_PASSWORD, .first = PASSWORD_SIZE - 1,
     .answer = MESSAGE_REPLY, .message = 2},
    {"AM13E230x: Unlock", "wrong, the alert erases 524,288", .bytes = 514 * KIB, .state = TWO_WRONG, .preset = ALERT_RESETS,
     .code = 0x21, .body = WRONG_PASSWORD, .first = PASSWORD_SIZE - 1, .answer = MESSAGE_REPLY, .message = 3},

    {"AM13E230x: Mass erase", "2,048", 2 * KIB, .main_size = 2 * KIB, .code = 0x15, .answer = MESSAGE_REPLY},
    {"AM13E230x: Mass erase", "524,288", 512 * KIB, .code = 0x15, .answer = MESSAGE_REPLY},
    {"AM13E230x: Mass erase, half protected", "524,288", 512 * KIB, .preset = HALF_PROTECTED, .code = 0x15,
     .answer = MESSAGE_REPLY},
    {"AM13E230x: Factory reset", "2,048", 4 * KIB, .main_size = 2 * KIB, .code = 0x30, .answer = MESSAGE_REPLY},
    {"AM13E230x: Range erase", "2,048", 2 * KIB, .code = 0x23, .body = TWO_NUMBERS, .first = 300000, .second = 300001,
     .answer = MESSAGE_REPLY},

    {"AM13E230x: Program", "16", 16, .code = 0x20, .body = DATA, .first = 2048, .second = 16, .answer = MESSAGE_REPLY},
    {"AM13E230x: Program", "1,712", 1712, .code = 0x20, .body = DATA, .first = 300032, .second = 1712,
     .answer = MESSAGE_REPLY},
    {"AM13E230x: Program without answer", "16", 16, .code = 0x24, .body = DATA, .first = 2048, .second = 16, .answer = 1},
    {"AM13E230x: Read back", "8", 8, .code = 0x29, .body = TWO_NUMBERS, .first = 300000, .second = 8,
     .answer = READ_BACK_FRAME + 8},
    {"AM13E230x: Read back", "1,720", 1720, .code = 0x29, .body = TWO_NUMBERS, .first = 300000, .second = 1720,
     .answer = READ_BACK_FRAME + 1720},
    {"AM13E230x: Verify", "2,048", 2 * KIB, .code = 0x26, .body = TWO_NUMBERS, .second = 2 * KIB, .answer = SUM_REPLY},
    {"AM13E230x: Verify", "65,536", 64 * KIB, .code = 0x26, .body = TWO_NUMBERS, .second = 64 * KIB, .answer = SUM_REPLY},

    {"AM13E230x: Told: locked", "Mass erase", .state = LOCKED, .code = 0x15, .answer = MESSAGE_REPLY, .message = 1},
    {"AM13E230x: Told: window", "Program 16", 16, .code = 0x20, .body = DATA, .first = WINDOW_AT, .second = 16,
     .answer = MESSAGE_REPLY, .message = 5},
    {"AM13E230x: Empty packet", "", .answer = 0},
    {"AM13E230x: Session ended", "", .state = ENDED, .code = 0x12, .answer = 0},
    {"AM13E230x: Refused: 10", "record not valid", .state = NOT_VALID, .code = 0x12, .answer = REFUSED(10)},

    {"AM13E230x: Start of a session", "blank", SETTINGS_SIZE, .function = START, .preset = BLANK},
    {"AM13E230x: Start of a session", "written", SETTINGS_SIZE, .function = START},
    {"AM13E230x: Settings read", "", SETTINGS_SIZE, .function = SETTINGS_READ},
    {"AM13E230x: Settings write", "", SETTINGS_SIZE, .function = SETTINGS_WRITE},
    {"AM13E230x: Rate of an id", "", .function = RATE, .answer = 115200},
};

const size_t bench_case_count = sizeof bench_cases / sizeof *bench_cases;
