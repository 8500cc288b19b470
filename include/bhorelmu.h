#ifndef BHORELMU_H
#define BHORELMU_H

#if !defined(__cplusplus) && (!defined(__STDC_VERSION__) || __STDC_VERSION__ < 199901L)
#error "bhorelmu.h wants C99 or later, or C++11 or later: compile with -std=c99 or a later one"
#endif

#include <stddef.h>
#include <stdint.h>

#define BHORELMU_VERSION "4.2.3"
#define BHORELMU_VERSION_NUMBER 40203 /* 10,000 for each major version, 100 for each minor, 1 for each patch */

/*
 * The device side of one boot loader session, on numbers and byte areas. docs/RECORD.md tells the same at length, and
 * examples/session.c and examples/session_am13e230x.c are whole sessions. C99 or later, or C++11 or later.
 *
 * There are two parts. bhorelmu_start and its like are the MSPM0's; bhorelmu_am13e230x_start and its like, at the end, are the
 * AM13E230x's, and a record of the one is none of the other.
 *
 * An area is a pointer and its size in bytes; all numbers in it are least significant byte first. A refused call changes
 * no byte of any area.
 *
 * Duties of the caller:
 *  - each pointer has as many bytes behind it as its size says, and none is NULL where the size is above 0;
 *  - the areas of one call do not overlap;
 *  - each call is lent the record that the call before it left, and both flash areas and the window as that call left
 *    them; no function here clears the window;
 *  - each start is lent a window of zeros: what one session left there the next could read;
 *  - where the flash areas are copies, what a call has erased is carried over MAIN first and the settings last (the source
 *    erases so in the areas; no proof says it): a cut of the power between the two must not leave a public password
 *    beside names in MAIN;
 *  - the wait of a refused call is added to the next wait, for the record has not moved;
 *  - a reply is sent at the rate that the record had before the call, and the next packet is received at the rate it
 *    has after it;
 *  - where an answer says so, the board burns its fuse before it sends the reply, and says so to every later start;
 *  - the stack suffices: no proof bounds it. Each function tells what it takes at most, as compiled and read off the
 *    machine code (thumbv6m: -O2); memset and the like come on top;
 *  - only the bytes of a reply leave the board: a record holds both passwords;
 *  - before the application runs, or anything else that is not to know the passwords, the caller clears the record, the
 *    reply area, the packet's area, the fields area and the stack below its own: after a call both passwords stand in the
 *    record, bytes that were read back may stand in the reply area, a password that was sent in the packet's, both
 *    passwords and the name in the fields, and copies of the record in the dead stack. No function here clears any of
 *    them;
 *  - one record is one session: who starts again gets a new count and a new total of wrong passwords.
 */

#ifdef __cplusplus
extern "C" {
#endif

#define BHORELMU_SETTINGS_SIZE 1024u
#define BHORELMU_WINDOW_SIZE 3456u /* the SRAM window, at 0x20000160 */
#define BHORELMU_PACKET_LARGEST 1728u /* a longer one is not refused: in the command phase an error answers it */
#define BHORELMU_REPLY_SIZE 1729u /* a reply area has at least so many bytes */
#define BHORELMU_RECORD_SIZE 94u
#define BHORELMU_FIELDS_SIZE 140u
#define BHORELMU_NAME_SIZE 64u
#define BHORELMU_COUNTS_SIZE 8u

/* Where the parts of a record stand. */
#define BHORELMU_RECORD_PHASE 0u
#define BHORELMU_RECORD_LOCK 1u /* 1: unlocked */
#define BHORELMU_RECORD_WRONG_COUNT 2u
#define BHORELMU_RECORD_RATE_ID 3u
#define BHORELMU_RECORD_SLEEP 4u      /* 4 bytes, milliseconds */
#define BHORELMU_RECORD_IDLE 8u       /* 4 bytes, milliseconds */
#define BHORELMU_RECORD_TRIES 12u     /* 4 bytes: how many wrong passwords in all, at most 65,535 */
#define BHORELMU_RECORD_MAIN_SIZE 16u /* 4 bytes */
#define BHORELMU_RECORD_FIELDS 20u    /* 74 bytes, the first of the fields: the settings as they were at start */

/* Where the fields stand in an area of fields; in a record all but the last two follow BHORELMU_RECORD_FIELDS. */
#define BHORELMU_FIELD_PASSWORD 0u        /* 32 bytes */
#define BHORELMU_FIELD_RESET_PASSWORD 32u /* 16 bytes */
#define BHORELMU_FIELD_RESET_MODE 48u
#define BHORELMU_FIELD_ALERT 49u
#define BHORELMU_FIELD_READOUT 50u            /* 2 bytes */
#define BHORELMU_FIELD_SETTINGS_PROTECTED 52u /* 1: the settings flash keeps its bytes; 0: it does not */
#define BHORELMU_FIELD_ZERO 53u               /* always 0 */
#define BHORELMU_FIELD_BCR_ID 54u             /* 4 bytes */
#define BHORELMU_FIELD_BSL_ID 58u             /* 4 bytes */
#define BHORELMU_FIELD_VERSION_POINTER 62u    /* 4 bytes */
#define BHORELMU_FIELD_PROTECTION 66u         /* 8 bytes, a bit a sector; bit 0 of the first is sector 0, and 1 keeps it */
#define BHORELMU_FIELD_NAME 74u               /* 64 bytes; all 0xFF: none */
#define BHORELMU_FIELD_FORM 138u              /* 2 bytes: the form of the image, 1 or 2 */

/* Where the counts stand in an area of counts, 2 bytes each. */
#define BHORELMU_COUNT_TABLE 0u
#define BHORELMU_COUNT_FILLER 2u
#define BHORELMU_COUNT_VALUES 4u
#define BHORELMU_COUNT_CHECKSUM 6u

/* The values of reset mode: whether Factory reset is obeyed. */
enum bhorelmu_reset_mode { BHORELMU_RESET_OFF, BHORELMU_RESET_ON, BHORELMU_RESET_WITH_PASSWORD };

/* The values of alert: what the third wrong password and each later one does. */
enum bhorelmu_alert { BHORELMU_ALERT_NOTHING, BHORELMU_ALERT_RESET, BHORELMU_ALERT_DISABLE };

/* The value of readout at which Read back is obeyed, the least significant byte first; any other value refuses it. */
#define BHORELMU_READOUT_ON 0xAABBu

enum bhorelmu_phase {
    BHORELMU_DETECT,
    BHORELMU_COMMAND,
    BHORELMU_STANDBY,
    BHORELMU_ENDED,
    BHORELMU_DISABLED
};

/* The numbers of refused calls; BHORELMU_DONE is no refusal. */
enum bhorelmu_refusal_number {
    BHORELMU_DONE = 0,
    BHORELMU_FUSE_SET = 1,
    BHORELMU_MAIN_SIZE_WRONG = 2,
    BHORELMU_SETTINGS_SIZE_WRONG = 3,
    BHORELMU_CHECKSUM_DIFFERS = 4,
    BHORELMU_FORM_UNKNOWN = 5,
    BHORELMU_ENTRY_DIFFERS = 6,
    BHORELMU_FILLER_DIFFERS = 7,
    BHORELMU_VALUE_NOT_ALLOWED = 8,
    BHORELMU_REPLY_AREA_TOO_SMALL = 9,
    BHORELMU_RECORD_NOT_VALID = 10, /* also: a fields or counts area of another size */
    BHORELMU_WINDOW_SIZE_WRONG = 11,
    BHORELMU_NAME_NOT_EMPTY = 41    /* a name for which form 1 has no place */
};

/*
 * Begins a session; any fuse but 0 is set. Of the window only the size is looked at. Refusals 1 to 3, then 11, then 4 to 8,
 * then 10 for a record area of another size.
 * Stack: 288 bytes on x86-64, 476 on thumbv6m.
 */
uint64_t bhorelmu_start(uint32_t fuse, const uint8_t *main_flash, size_t main_size, const uint8_t *settings,
                        size_t settings_size, const uint8_t *window, size_t window_size, uint8_t *record,
                        size_t record_size);

/*
 * Lets `wait` milliseconds pass since the call before, or since start, then takes one packet, perhaps empty, and updates
 * the record, both flash areas and the window. Refusals 9, then 11, then 10 for an area that is no record's, for a MAIN of
 * another size than the record says, and for settings that are not 1,024 bytes. Bytes past the reply stay as lent.
 * Stack: 704 bytes on x86-64, 636 on thumbv6m.
 */
uint64_t bhorelmu_call(uint8_t *record, size_t record_size, uint8_t *main_flash, size_t main_size, uint8_t *settings,
                       size_t settings_size, uint8_t *window, size_t window_size, uint32_t wait, const uint8_t *packet,
                       size_t packet_size, uint8_t *reply, size_t reply_size);

/*
 * Takes the 140 bytes of fields out of a settings image of either form: the six bodies (bytes 52 to 125 of form 1, 60 to
 * 133 of form 2), the name (134 to 197 of form 2; 0xFF of form 1) and the form; or those of the blank settings out of a
 * blank one, which counts as form 1.
 * Refusals 3 to 8, then 10 for a fields area of another size.
 * Stack: 400 bytes on x86-64, 620 on thumbv6m.
 */
uint64_t bhorelmu_settings_read(const uint8_t *image, size_t image_size, uint8_t *fields, size_t fields_size);

/*
 * Makes a settings image around 140 bytes of fields, in the form that they name. Refusals 3, then 10 for a fields area of
 * another size, then 5 for a form that is neither 1 nor 2, then 8, then 41 for a name in form 1.
 * Stack: 320 bytes on x86-64, 476 on thumbv6m.
 */
uint64_t bhorelmu_settings_write(const uint8_t *fields, size_t fields_size, uint8_t *image, size_t image_size);

/*
 * Moves a settings image of form 1 to form 2, where it lies, with a name of 0xFF. A blank image stays as it is. Refusals 3
 * to 8; 5 also for an image of form 2.
 * Stack: 288 bytes on x86-64, 484 on thumbv6m.
 */
uint64_t bhorelmu_settings_to_form_2(uint8_t *image, size_t image_size);

/*
 * Moves a settings image of form 2 back to form 1, where it lies. A blank image stays as it is. Refusals 3 to 8, then 41 for
 * a name that is not all 0xFF; 5 also for an image of form 1.
 * Stack: 384 bytes on x86-64, 484 on thumbv6m.
 */
uint64_t bhorelmu_settings_to_form_1(uint8_t *image, size_t image_size);

/*
 * Mends a settings image that the reader does not accept, where it lies, as one of form 1: bodies 1, 2, 4, 5 and 6 stay,
 * table and filler are put right, the values of body 3 that are not allowed become those of a blank image, and the
 * checksum is written. Stores how many bytes were changed, two bytes for each count. An image that the reader accepts stays
 * as it is, with counts of 0. Refusals 3, then 5 for an image that is not accepted and begins with form 2 and count 7, then
 * 10 for a counts area of another size. A bad byte in a kept body, a password's among them, cannot be seen, and the new
 * checksum seals it: docs/DEPOT.md.
 * Stack: 416 bytes on x86-64, 492 on thumbv6m.
 */
uint64_t bhorelmu_settings_mend(uint8_t *image, size_t image_size, uint8_t *counts, size_t counts_size);

/* Bits a second of rate ids 1 to 9; 0 for any other id. Stack: 8 bytes on x86-64, 0 on thumbv6m. */
uint32_t bhorelmu_rate(uint32_t id);

/* ---- the AM13E230x ---- */

/*
 * The larger shelf's part has sectors of 2,048 bytes, MAIN of 2,048 to 524,288 and settings of 2,048 at 0x60100800; it has
 * no window and no form 1. What is not said here is as above: duties, phases, refusals, where the parts of a record stand,
 * and the fields up to the version pointer.
 */

#define BHORELMU_AM13E230X_SETTINGS_SIZE 2048u
#define BHORELMU_AM13E230X_RECORD_SIZE 118u /* at BHORELMU_RECORD_FIELDS stand 98 bytes, the first of the fields */
#define BHORELMU_AM13E230X_FIELDS_SIZE 164u

/* Where the last fields stand in an area of fields; those before are where BHORELMU_FIELD_PASSWORD and so on say. */
#define BHORELMU_AM13E230X_FIELD_PROTECTION 66u /* 32 bytes, a bit a sector, as BHORELMU_FIELD_PROTECTION */
#define BHORELMU_AM13E230X_FIELD_NAME 98u       /* 64 bytes; all 0xFF: none */
#define BHORELMU_AM13E230X_FIELD_FORM 162u      /* 2 bytes: always 2 */

/*
 * Begins a session, as bhorelmu_start without a window: refusals 1 to 8, then 10 for a record area of another size, the
 * MSPM0's 94 bytes among them.
 * Stack: 304 bytes on x86-64, 500 on thumbv6m.
 */
uint64_t bhorelmu_am13e230x_start(uint32_t fuse, const uint8_t *main_flash, size_t main_size, const uint8_t *settings,
                                  size_t settings_size, uint8_t *record, size_t record_size);

/*
 * One packet after one wait, as bhorelmu_call without a window. Refusals 9, then 10.
 * Stack: 688 bytes on x86-64, 620 on thumbv6m.
 */
uint64_t bhorelmu_am13e230x_call(uint8_t *record, size_t record_size, uint8_t *main_flash, size_t main_size,
                                 uint8_t *settings, size_t settings_size, uint32_t wait, const uint8_t *packet,
                                 size_t packet_size, uint8_t *reply, size_t reply_size);

/*
 * Takes the 164 bytes of fields out of a settings image: bytes 60 to 221, then the form; or those of the blank settings out of
 * a blank one, 2,048 bytes 0xFF, which counts as form 2.
 * Refusals 3 to 8, then 10 for a fields area of another size. 7 also for a byte of 1,024 to 2,047 that is not 0xFF.
 * Stack: 336 bytes on x86-64, 540 on thumbv6m.
 */
uint64_t bhorelmu_am13e230x_settings_read(const uint8_t *image, size_t image_size, uint8_t *fields, size_t fields_size);

/*
 * Makes a settings image around 164 bytes of fields, in its first 1,024 bytes, and 0xFF after. Refusals 3, then 10 for a fields
 * area of another size, then 5 for a form that is not 2, then 8.
 * Stack: 288 bytes on x86-64, 460 on thumbv6m.
 */
uint64_t bhorelmu_am13e230x_settings_write(const uint8_t *fields, size_t fields_size, uint8_t *image, size_t image_size);

/*
 * Bits a second of rate ids 1 to 9, and 4,000,000 of 0x10; 0 for any other id.
 * Stack: 8 bytes on x86-64, 0 on thumbv6m.
 */
uint32_t bhorelmu_am13e230x_rate(uint32_t id);

/* ---- the parts of an answer ---- */

/* The number of the refusal, 0 where the call was not refused. */
static inline unsigned bhorelmu_refusal(uint64_t answer)
{
    return (unsigned)(answer >> 56);
}

/* 1 where the board is to burn its fuse now. */
static inline int bhorelmu_burns(uint64_t answer)
{
    return (int)(answer >> 32 & 1u);
}

/* How many bytes of the reply area are the reply (a session call). */
static inline uint32_t bhorelmu_length(uint64_t answer)
{
    return (uint32_t)answer;
}

/* The entry of the settings image that goes with refusal 6 (start, the settings reader and both moves). */
static inline uint32_t bhorelmu_entry(uint64_t answer)
{
    return (uint32_t)answer;
}

#ifdef __cplusplus
}
#endif

#endif
