#ifndef COVERAGE_H
#define COVERAGE_H

#include <stddef.h>
#include <stdio.h>

#include "wire.h"

/*
 * Counts of what the calls of a run have shown. P: a point that can arise on both parts, M: on the MSPM0, A: on the AM13E230x. A
 * long run must see every point of its part, and none of the other's.
 */

#define COVERAGE_POINTS(P, M, A) \
    P(ACK_00, "acknowledgement", "00") P(ACK_51, "", "51") P(ACK_52, "", "52") P(ACK_53, "", "53") \
    P(ACK_54, "", "54") P(ACK_55_SHORT, "", "55 under 3 bytes") P(ACK_55_SIZE, "", "55 size not L+7") \
    P(ACK_56_LENGTH, "", "56 L not 2") P(ACK_56_ID, "", "56 rate id") \
    P(ACK_56_0A, "56, rate id", "0x0A") P(ACK_56_0B, "", "0x0B") P(ACK_56_0C, "", "0x0C") P(ACK_56_0D, "", "0x0D") \
    P(ACK_56_0E, "", "0x0E") P(ACK_56_0F, "", "0x0F") M(ACK_56_10, "", "0x10") P(ACK_56_11, "", "0x11") \
    P(MESSAGE_00, "message", "00") P(MESSAGE_01, "", "01") P(MESSAGE_02, "", "02") P(MESSAGE_03, "", "03") \
    P(MESSAGE_04, "", "04") P(MESSAGE_05, "", "05") P(MESSAGE_06, "", "06") P(MESSAGE_07, "", "07") \
    P(MESSAGE_08, "", "08") P(MESSAGE_09, "", "09") P(MESSAGE_0A, "", "0A") P(MESSAGE_0B, "", "0B") \
    P(START_TAKEN, "start, refusal", "none") P(START_1, "", "1") P(START_2, "", "2") P(START_3, "", "3") \
    P(START_4, "", "4") P(START_5, "", "5") P(START_6, "", "6") P(START_7, "", "7") P(START_8, "", "8") \
    P(START_10, "", "10") P(START_10_OTHER, "", "10 for a record area of the other part") \
    P(START_3_OTHER, "", "3 for settings of the other part") A(START_4_HALF, "", "4 for settings whose first half is 0xFF") \
    A(START_5_FORM_1, "", "5 for a whole image of form 1") P(START_6_OTHER, "", "6 for the other part's protection") \
    M(START_11, "", "11") M(START_3_AND_11, "", "3 before 11") M(START_11_AND_4, "", "11 before 4 to 8") \
    P(READ_TAKEN, "settings reader, refusal", "none") P(READ_3, "", "3") P(READ_4, "", "4") P(READ_5, "", "5") \
    P(READ_6, "", "6") P(READ_7, "", "7") P(READ_8, "", "8") P(READ_10, "", "10") \
    P(READ_10_OTHER, "", "10 for a fields area of the other part") A(READ_4_HALF, "", "4 for settings whose first half is 0xFF") \
    A(READ_5_FORM_1, "", "5 for a whole image of form 1") \
    P(READ_BLANK, "settings reader, image", "blank") M(READ_FORM_1, "", "form 1") P(READ_FORM_2, "", "form 2") \
    P(READ_NAMED, "", "form 2 with a name") \
    P(WRITE_TAKEN, "settings writer, refusal", "none") P(WRITE_3, "", "3") P(WRITE_5, "", "5") P(WRITE_8, "", "8") \
    P(WRITE_10, "", "10") P(WRITE_10_OTHER, "", "10 for a fields area of the other part") \
    A(WRITE_5_FORM_1, "", "5 for form 1") \
    M(WRITE_41, "", "41") P(WRITE_5_FIRST, "", "5 before 8") M(WRITE_8_FIRST, "", "8 before 41") \
    M(WRITE_FORM_1, "settings writer, image", "form 1") P(WRITE_FORM_2, "", "form 2") \
    P(WRITE_NAMED, "", "form 2 with a name") \
    M(TO_2_MOVED, "move to form 2", "moved") M(TO_2_BLANK, "", "blank") M(TO_2_3, "", "3") M(TO_2_4, "", "4") \
    M(TO_2_5, "", "5") M(TO_2_6, "", "6") M(TO_2_7, "", "7") M(TO_2_8, "", "8") \
    M(TO_2_OTHER, "", "5 for a whole image of form 2") \
    M(TO_1_MOVED, "move to form 1", "moved") M(TO_1_BLANK, "", "blank") M(TO_1_3, "", "3") M(TO_1_4, "", "4") \
    M(TO_1_5, "", "5") M(TO_1_6, "", "6") M(TO_1_7, "", "7") M(TO_1_8, "", "8") \
    M(TO_1_OTHER, "", "5 for a whole image of form 1") M(TO_1_41, "", "41") M(TO_1_8_FIRST, "", "8 before 41") \
    M(MEND_MENDED, "mending", "mended") M(MEND_BLANK, "", "blank kept") M(MEND_FORM_1, "", "form 1 kept") \
    M(MEND_FORM_2, "", "form 2 kept") M(MEND_3, "", "3") M(MEND_5, "", "5") M(MEND_10, "", "10") \
    M(MEND_3_FIRST, "", "3 before 10") M(MEND_5_FIRST, "", "5 before 10") M(MEND_10_DAMAGED, "", "10 for a damaged image") \
    M(MEND_NEARLY_BLANK, "", "blank but for a byte") M(MEND_WAS_FORM_2, "", "form 2 taken for form 1") \
    M(MEND_MODE, "mended value", "reset mode") M(MEND_ALERT, "", "alert") M(MEND_PROTECTED, "", "settings protected") \
    M(MEND_ZERO, "", "zero byte") M(MEND_READOUT, "", "none, the readout not the blank one") \
    M(MEND_TABLE_ALONE, "mended, one byte alone", "table") M(MEND_FILLER_ALONE, "", "filler") \
    M(MEND_VALUES_ALONE, "", "values") M(MEND_CHECKSUM_ALONE, "", "checksum") \
    M(MEND_SEALED, "mended, the checksum", "over a kept body alone") M(MEND_CHECKSUM_SOME, "", "1 to 3 bytes") M(MEND_CHECKSUM_ALL, "", "4 bytes") \
    P(PAIR_1_7, "refusal 5, form and count", "1 and 7") P(PAIR_2_6, "", "2 and 6") P(PAIR_OTHER, "", "another pair") \
    P(PAIR_1_6, "", "1 and 6") \
    M(FILLER_126, "refusal 7, the one byte", "126 of form 1") P(FILLER_NAME, "", FILLER_TEXT " of form 2") \
    P(FILLER_LAST, "", "1,019") A(FILLER_1024, "", "1,024") A(FILLER_2047, "", "2,047") A(FILLER_SECOND, "", "another after 1,024") \
    A(FILLER_FIRST, "", "one of the second half, and a value that is not allowed") \
    P(CALL_TAKEN, "session call, refusal", "none") P(CALL_9, "", "9") P(CALL_10, "", "10") \
    M(CALL_11, "", "11") M(CALL_9_AND_11, "", "9 before 11") M(CALL_11_AND_10, "", "11 before 10") \
    M(NO_WINDOW_DETECT, "11 in phase", "detect") M(NO_WINDOW_COMMAND, "", "command") \
    M(NO_WINDOW_STANDBY, "", "standby") M(NO_WINDOW_ENDED, "", "ended") M(NO_WINDOW_DISABLED, "", "disabled") \
    M(WINDOW_SHORT, "window lent", "3,455 bytes") M(WINDOW_LONG, "", "3,457 bytes") \
    P(ENTRY_1, "refusal 6, entry", "1") P(ENTRY_2, "", "2") P(ENTRY_3, "", "3") P(ENTRY_4, "", "4") \
    P(ENTRY_5, "", "5") P(ENTRY_6, "", "6") P(ENTRY_7, "", "7") P(ENTRY_KIND, "", "kind") P(ENTRY_OFFSET, "", "offset") \
    P(ENTRY_LENGTH, "", "length") P(ENTRY_ZERO, "", "zero") \
    P(FUSE_1, "start", "fuse 1") P(FUSE_256, "", "fuse with low byte 0") P(FUSE_OTHER, "", "fuse of other values") \
    P(START_SMALL, "", "MAIN below " SECTOR_TEXT) P(START_LARGE, "", "MAIN above " LARGEST_TEXT) \
    A(START_1024, "", "MAIN 1,024") A(START_HALF_STEP, "", "MAIN a multiple of 1,024 alone") \
    P(START_BROKEN, "", "MAIN no multiple") P(START_LEAST, "", "MAIN " SECTOR_TEXT) P(START_MOST, "", "MAIN " LARGEST_TEXT) \
    P(START_BLANK, "", "blank image") M(START_FORM_1, "", "image of form 1") P(START_FORM_2, "", "image of form 2") \
    P(CLAUSE_SHORT, "10, one clause alone", "record area short") P(CLAUSE_LONG, "", "record area long") \
    P(CLAUSE_OTHER, "", "record area of the other part") \
    P(CLAUSE_PHASE, "", "phase byte") P(CLAUSE_LOCK, "", "lock byte") P(CLAUSE_IDLE, "", "idle") \
    P(CLAUSE_SLEEP, "", "sleep") P(CLAUSE_COUNT, "", "wrong count") P(CLAUSE_RATE_0, "", "rate id 0") \
    P(CLAUSE_TOTAL_BELOW, "", "total below the count") P(CLAUSE_TOTAL, "", "total above 65,535") \
    P(CLAUSE_RATE, "", "rate id above 9, of no rate") P(CLAUSE_RATE_0A, "", "rate id 0x0A") \
    P(CLAUSE_RATE_0F, "", "rate id 0x0F") M(CLAUSE_RATE_10, "", "rate id 0x10") P(CLAUSE_RATE_11, "", "rate id 0x11") \
    P(CLAUSE_MODE, "", "reset mode") P(CLAUSE_ALERT, "", "alert") \
    P(CLAUSE_PROTECTED, "", "settings protected") P(CLAUSE_ZERO, "", "zero byte") \
    P(CLAUSE_UNLOCKED_OUTSIDE, "", "unlocked outside command") P(CLAUSE_SLEEP_OUTSIDE, "", "sleep outside command") \
    P(CLAUSE_UNLOCKED_SLEEP, "", "unlocked and asleep") P(CLAUSE_MAIN, "", "MAIN size") \
    P(CLAUSE_SETTINGS, "", "settings area") P(CLAUSE_UNLIKE, "", "MAIN unlike the lent") \
    P(CLAUSE_IDLE_EDGE, "", "idle 10,000") P(CLAUSE_SLEEP_EDGE, "", "sleep 2,001") \
    P(CLAUSE_COUNT_EDGE, "", "count 4") P(CLAUSE_TOTAL_BELOW_EDGE, "", "total one below the count") \
    P(CLAUSE_TOTAL_EDGE, "", "total 65,536") \
    P(IN_DETECT, "call in phase", "detect") P(IN_LOCKED, "", "command locked") \
    P(IN_UNLOCKED, "", "command unlocked") P(IN_ASLEEP, "", "command asleep") P(IN_STANDBY, "", "standby") \
    P(IN_ENDED, "", "ended") P(IN_DISABLED, "", "disabled") \
    P(TO_COMMAND, "change", "detect to command") P(TO_STANDBY, "", "detect to standby") \
    P(TO_ENDED, "", "command to ended") P(TO_DISABLED, "", "command to disabled") \
    P(TO_UNLOCKED, "", "locked to unlocked") P(TO_LOCKED, "", "unlocked to locked by idle") \
    P(TO_LOCKED_WRONG, "", "unlocked to locked by password") P(RATE_CHANGED, "", "rate changed") \
    A(RATE_SET_10, "", "rate id 0x10 set") A(RATE_FROM_10, "", "rate id 0x10 left") \
    P(RATE_BACK, "", "rate back to 2") \
    P(SILENT_EMPTY, "no reply", "empty packet") P(SILENT_ASLEEP, "", "asleep") P(SILENT_DETECT, "", "in detect") \
    P(SILENT_DAMAGED_CONNECT, "", "Connect damaged in detect") P(SILENT_STANDBY, "", "Connect as detect ends") \
    P(WAIT_BELOW_SLEEP, "wait", "1 below sleep") P(WAIT_SLEEP, "", "equal to sleep") \
    P(WAIT_1999, "", "1,999 of 2,000") P(WAIT_2000, "", "2,000 of 2,000") P(WAIT_OVER_SLEEP, "", "over sleep") \
    P(WAIT_9999, "", "idle 9,999, unlocked") P(WAIT_10000, "", "idle 10,000, unlocked") \
    P(WAIT_DETECT_9999, "", "idle 9,999, detect") P(WAIT_DETECT_10000, "", "idle 10,000, detect") \
    P(WAIT_WRAP, "", "idle past 2^32") P(WAIT_LARGEST, "", "2^32-1") \
    P(IDLE_KEPT, "idle above 0", "kept by a packet without 00") P(IDLE_UNKNOWN, "", "kept by an unknown code") \
    P(IDLE_CLEARED, "", "cleared by a refused command") P(IDLE_CLEARED_SILENT, "", "cleared by a silent refusal") \
    P(IDLE_CLEARED_WRITTEN, "", "cleared by the Detailed Error") \
    P(ALERT_0_THIRD, "alert, third wrong one", "nothing") P(ALERT_1_THIRD, "", "reset") \
    P(ALERT_2_THIRD, "", "disable") \
    P(ALERT_0_LATER, "alert, later wrong one", "nothing") P(ALERT_1_LATER, "", "reset") \
    P(ALERT_2_LATER, "", "disable") \
    P(ALERT_RESET_MODE_0, "alert reset in reset mode", "0") P(ALERT_RESET_MODE_1, "", "1") \
    P(ALERT_RESET_MODE_2, "", "2") \
    P(WRONG_AT_0, "wrong password, total then 1 more", "from 0") P(WRONG_AT_3, "", "from 3") \
    P(WRONG_AT_65534, "", "from 65,534") P(WRONG_LATER, "", "from the fourth on") P(WRONG_UNLOCKED, "", "unlocked") \
    P(TOTAL_STOPS, "total stays", "wrong password at 65,535") P(TOTAL_KEPT, "", "right password clears the count") \
    P(TOTAL_AS_COUNT, "", "taken, as large as a count above 0") \
    P(BURN, "alert", "burn the fuse") P(PASSWORD_KEPT, "", "unlocked by the session's password over blank settings") \
    P(SECTOR_MASS, "protected sector skipped by", "Mass erase") P(SECTOR_FACTORY, "", "Factory reset") \
    P(SECTOR_ALERT, "", "alert reset") \
    P(SETTINGS_FACTORY, "protected settings skipped by", "Factory reset") P(SETTINGS_ALERT, "", "alert reset") \
    A(FAR_PROGRAM, "sector from the 65th on, by its own bit", "Program refused") A(FAR_FAST, "", "Program fast refused") \
    A(FAR_ERASE, "", "Range erase refused") A(FAR_MASS, "", "kept by Mass erase") A(FAR_FACTORY, "", "kept by Factory reset") \
    A(FAR_ALERT, "", "kept by the alert reset") A(FAR_PROGRAM_OPEN, "", "Program done") A(FAR_FAST_OPEN, "", "Program fast done") \
    A(FAR_ERASE_OPEN, "", "Range erase done") A(FAR_LAST, "", "the 256th") \
    A(HALF_PROGRAM, "second half of the settings", "Program") A(HALF_FAST, "", "Program fast") A(HALF_READ, "", "Read back") \
    A(HALF_WRITTEN, "", "F0, not blank") A(HALF_FACTORY, "", "programmed in the session, erased by Factory reset") \
    A(HALF_ALERT, "", "programmed in the session, erased by the alert reset") A(HALF_KEPT_FACTORY, "", "written and protected, kept by Factory reset") \
    A(HALF_KEPT_ALERT, "", "written and protected, kept by the alert reset") \
    P(PLACE_READ, "protected place shown by", "Read back") P(PLACE_VERIFY, "", "Verify") \
    P(PROGRAM_ALL, "Program refused, protected", "every sector") P(PROGRAM_FIRST, "", "the first, not all") \
    P(PROGRAM_LATER, "", "a later one, not the first") P(PROGRAM_SETTINGS, "", "settings") \
    P(FAST_ALL, "Program fast refused, protected", "every sector") P(FAST_FIRST, "", "the first, not all") \
    P(FAST_LATER, "", "a later one, not the first") P(FAST_SETTINGS, "", "settings") \
    P(ERASE_ALL, "Range erase refused, protected", "every sector") P(ERASE_FIRST, "", "the first, not all") \
    P(ERASE_LATER, "", "a later one, not the first") P(ERASE_BETWEEN, "", "one between open ones") \
    P(ALIGNMENT_SECTOR, "0A before protected", "sector") P(ALIGNMENT_SETTINGS, "", "settings") \
    P(OUTSIDE_PROGRAM, "outside and protected", "Program") P(OUTSIDE_FAST, "", "Program fast") \
    P(OUTSIDE_ERASE, "", "Range erase") P(OUTSIDE_BACKWARDS, "", "Range erase, start above end") \
    P(BESIDE_PROGRAM_AFTER, "done beside a protected sector", "Program after it") \
    P(BESIDE_PROGRAM_BEFORE, "", "Program before it") \
    P(BESIDE_PROGRAM_END, "", "Program up to MAIN's end, the bit beyond") \
    P(BESIDE_ERASE_AFTER, "", "Range erase after it") P(BESIDE_ERASE_BEFORE, "", "Range erase before it") \
    P(BESIDE_ERASE_END, "", "Range erase up to MAIN's end, the bit beyond") \
    A(ABSENT_PROGRAM, "at the window's addresses 05", "Program") A(ABSENT_FAST, "", "Program fast, nothing") \
    A(ABSENT_READ, "", "Read back") A(ABSENT_VERIFY, "", "Verify") \
    M(STORED_ODD, "stored in the window", "at an odd address") M(STORED_ODD_COUNT, "", "an odd count") \
    M(STORED_ONE, "", "1 byte") M(STORED_1716, "", "1,716 bytes") M(STORED_FAST, "", "by Program fast") \
    M(STORED_OVER, "", "over bytes that a program could not set") M(STORED_PROTECTED, "", "all else protected") \
    M(WINDOW_READ, "of the window", "Read back") M(WINDOW_READ_OFF, "", "Read back, readout off") \
    M(WINDOW_VERIFY_SMALL, "", "Verify below 1,024") M(WINDOW_VERIFY_1024, "", "Verify 1,024 from its start") \
    M(WINDOW_VERIFY_WHOLE, "", "Verify 3,456") M(WINDOW_VERIFY_EXAMPLE, "", "Verify 0x20000000, 1,024") \
    M(WINDOW_ERASE, "", "Range erase") \
    M(WINDOW_MASS, "window left by", "Mass erase") M(WINDOW_FACTORY, "", "Factory reset") M(WINDOW_ALERT, "", "alert reset") \
    P(FACTORY_OPEN, "Factory reset", "mode 1, L 1") P(FACTORY_OPEN_17, "", "mode 1, L 17") \
    P(FACTORY_RIGHT, "", "mode 2, right") P(FACTORY_WRONG, "", "mode 2, wrong") P(FACTORY_NONE, "", "mode 2, none") \
    P(FAST_LOCKED, "Program fast refused", "locked") P(FAST_LENGTH, "", "L") P(FAST_RANGE, "", "range") \
    P(FAST_ALIGNMENT, "", "alignment") P(FAST_PROTECTED, "", "protected") P(FAST_WRITTEN, "", "not blank") \
    P(WRITTEN_FIRST, "Program, not blank", "the first word alone") P(WRITTEN_LAST, "", "the last alone") \
    P(WRITTEN_BETWEEN, "", "one between alone") P(WRITTEN_ONES, "", "data of 0xFF") \
    P(WRITTEN_SETTINGS, "", "settings") P(WRITTEN_PROTECTED, "", "protected before it") \
    P(WRITTEN_UNALIGNED, "", "0A before it") \
    P(FAST_WRITTEN_FIRST, "Program fast, not blank", "the first word alone") P(FAST_WRITTEN_LAST, "", "the last alone") \
    P(FAST_WRITTEN_BETWEEN, "", "one between alone") P(FAST_WRITTEN_ONES, "", "data of 0xFF") \
    P(FAST_WRITTEN_SETTINGS, "", "settings") P(FAST_WRITTEN_PROTECTED, "", "protected before it") \
    P(FAST_WRITTEN_UNALIGNED, "", "0A before it") \
    P(BLANK_MAIN, "blank, and done", "Program in MAIN") P(BLANK_SETTINGS, "", "Program in the settings") \
    P(BLANK_BESIDE, "", "Program beside a word that is not blank") \
    P(BLANK_MAIN_FAST, "", "Program fast in MAIN") P(BLANK_SETTINGS_FAST, "", "Program fast in the settings") \
    P(BLANK_BESIDE_FAST, "", "Program fast beside such a word") \
    P(ALIGNMENT_ADDRESS, "alignment", "address only") P(ALIGNMENT_COUNT, "", "data size only") \
    P(RANGE_AND_ALIGNMENT, "", "range before alignment") \
    P(ALIGNMENT_HALF, "", "address half as even as it should be") P(ALIGNMENT_HALF_COUNT, "", "data size half as even") \
    P(ERASE_WHOLE, "Range erase", "0 to the last byte") P(ERASE_LAST, "", "end the last byte") \
    P(ERASE_PAST, "", "end past the last byte") P(ERASE_START_PAST, "", "start past the last byte") \
    P(ERASE_ONE, "", "start equal to end") P(ERASE_BACKWARDS, "", "start one above end") \
    P(ERASE_EDGES, "", "last byte of a sector to first of another") \
    P(VERSION_INSIDE, "version pointer", "in MAIN") P(VERSION_LAST, "", "size - " VERSION_TEXT) P(VERSION_OVER, "", "size") \
    P(VERSION_CUT, "", VERSION_CUT_TEXT) P(VERSION_UNEVEN, "", "no multiple of " VERSION_TEXT) \
    P(VERSION_HALF, "", "half of such a multiple") P(VERSION_TOP, "", VERSION_TOP_TEXT) \
    P(LENGTH_1721, "limits", "L 1,721 acknowledged") P(LENGTH_1722, "", "L 1,722, size fits") \
    P(LENGTH_65535, "", "L 65,535, size fits") P(READ_0, "", "Read back 0") P(READ_1720, "", "Read back 1,720") \
    P(READ_1721, "", "Read back 1,721") P(VERIFY_SHORT, "", "Verify " BELOW_SECTOR_TEXT) P(VERIFY_ENOUGH, "", "Verify " SECTOR_TEXT) \
    A(VERIFY_1024, "", "Verify 1,024") P(VERIFY_MOST, "", "Verify " LARGEST_TEXT) P(VERIFY_OVER, "", "Verify " OVER_LARGEST_TEXT) \
    P(REPLY_LARGEST, "", "reply of 1,729 bytes") P(REPLY_1728, "", "reply area of 1,728") \
    P(RATE_ID_1, "rate of id", "1") P(RATE_ID_2, "", "2") P(RATE_ID_3, "", "3") P(RATE_ID_4, "", "4") \
    P(RATE_ID_5, "", "5") P(RATE_ID_6, "", "6") P(RATE_ID_7, "", "7") P(RATE_ID_8, "", "8") P(RATE_ID_9, "", "9") \
    P(RATE_ID_0, "", "0") P(RATE_ID_10, "", "10") P(RATE_ID_11, "", "11 to 15") P(RATE_ID_16, "", "0x10") P(RATE_ID_17, "", "0x11") \
    P(RATE_ID_LARGE, "", "above 255") \
    P(PAIR_CUT_BETWEEN, "two boards over restarts", "power cut between two calls") P(PAIR_FUSE, "", "start refused, fuse") \
    P(PAIR_RUBBISH, "", "start refused, settings") \
    A(PAIR_SECOND_HALF, "", "settings programmed after the image") P(PAIR_STRUCK, "", "started after a strike") \
    P(PAIR_CUT_WITHIN, "", "power cut within a strike's erase") P(PAIR_CUT_AGAIN, "", "and once more") \
    P(PAIR_AFTER_CUT, "", "started after that") P(PAIR_OLD_PASSWORD, "", "old password after a strike") \
    P(PAIR_UNLOCKED, "", "both unlocked after a strike") P(PAIR_READ, "", "both read back after a strike") \
    M(PAIR_WINDOW_READ, "", "both windows read back after a strike") \
    P(PAIR_STRUCK_AGAIN, "", "both struck again") P(PAIR_ADVISED_STRUCK, "", "advised boards started after a strike") \
    P(PAIR_TOLD_PASSWORD, "two boards told apart by", "a password in the session that is struck") \
    P(PAIR_TOLD_SECTOR, "", "a protected sector beside open settings") \
    M(PAIR_TOLD_WINDOW, "", "windows kept over a restart") \
    P(PAIR_TOLD_SETTINGS_FIRST, "", "settings erased before MAIN")

enum coverage_point {
#define POINT(name, group, label) name,
    COVERAGE_POINTS(POINT, POINT, POINT)
#undef POINT
    POINTS_IN_ALL
};

void seen(int point);

/* What became of an acknowledged command: a message 00 to 0B, other data, the Detailed Error, or no core reply. */
enum outcome { OUTCOME_DATA = 12, OUTCOME_FLASH_ERROR, OUTCOME_DONE, OUTCOME_REFUSED, OUTCOMES };
void seen_outcome(uint8_t command, int outcome);

/* Where a range lay that an unlocked Program, Program fast, Read back or Verify gave. */
enum edge {
    MAIN_FIRST,
    MAIN_TO_END,
    MAIN_OVER_END,
    MAIN_AT_END,
    SETTINGS_OVER_START,
    SETTINGS_FIRST,
    SETTINGS_TO_END,
    SETTINGS_OVER_END,
    SETTINGS_AT_END,
    WINDOW_OVER_START,
    WINDOW_FIRST,
    WINDOW_TO_END,
    WINDOW_OVER_END,
    WINDOW_AT_END,
    PAST_2_32,
    EDGES
};
void seen_edge(uint8_t command, enum edge edge);

void print_coverage(FILE *out);

/* Names what was not seen, and what was seen though the documents do not have it for this part; returns how much that is. */
size_t print_unseen(FILE *out);

#endif
