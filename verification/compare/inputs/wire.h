#ifndef WIRE_H
#define WIRE_H

#include <stddef.h>
#include <stdint.h>

#ifdef AM13E230X
#include "parts/am13e230x.h"
#else
#include "parts/mspm0.h"
#endif

/*
 * Document 01's numbers and bytes for the comparison's own use, over the numbers of one part: enough to make boards, packets and
 * records. It shares nothing with either of the loaders that are compared.
 */

#define WINDOW_START 0x20000160u
enum { WINDOW_SPAN = 3456 }; /* as many addresses are tried where the part has no window too */

enum { CORE_LARGEST = 1721, REPLY_LEAST = 1729 };

/* Fields: the first six bodies of a settings image, of which a record has a copy, then the name and the form. */
enum {
    PASSWORD_AT = 0,
    RESET_PASSWORD_AT = 32,
    RESET_MODE_AT = 48,
    ALERT_AT = 49,
    READOUT_AT = 50,
    SETTINGS_PROTECTED_AT = 52,
    ZERO_AT = 53,
    IDS_AT = 54,
    POINTER_AT = 62,
    PROTECTION_AT = 66,
    KEPT_BYTES = PROTECTION_AT + PROTECTION_BYTES,
    NAME_AT = KEPT_BYTES,
    NAME_BYTES = 64,
    FORM_AT = NAME_AT + NAME_BYTES,
    FIELDS_BYTES = FORM_AT + 2
};

/* The counts of a mended image, two bytes each. */
enum { COUNTS_BYTES = 8 };

/* A record. */
enum {
    PHASE_AT = 0,
    LOCK_AT = 1,
    COUNT_AT = 2,
    RATE_AT = 3,
    SLEEP_AT = 4,
    IDLE_AT = 8,
    TRIES_AT = 12,
    MAIN_SIZE_AT = 16,
    RECORD_FIELDS_AT = 20,
    RECORD_BYTES = RECORD_FIELDS_AT + KEPT_BYTES
};

enum { PHASE_DETECT, PHASE_COMMAND, PHASE_STANDBY, PHASE_ENDED, PHASE_DISABLED };

/* A settings image. The places that the two forms have apart come first for form 1, then for form 2. */
enum { IMAGE_ENTRIES_AT = 4, IMAGE_CHECKSUM_AT = 1020, IMAGE_END = 1024 };
enum { FIELDS_AT_1 = 52, FIELDS_AT_2 = 60, FILLER_AT_1 = 126 };
enum { IMAGE_PROTECTION_AT = FIELDS_AT_2 + PROTECTION_AT, IMAGE_NAME_AT = FIELDS_AT_2 + NAME_AT };
enum { FILLER_AT_2 = IMAGE_NAME_AT + NAME_BYTES };

enum { COMMANDS = 12 };
extern const uint8_t command_codes[COMMANDS];
extern const char *const command_names[COMMANDS];

uint32_t read16(const uint8_t *from);
uint32_t read32(const uint8_t *from);
void write16(uint8_t *to, uint32_t value);
void write32(uint8_t *to, uint32_t value);

uint32_t crc(const uint8_t *bytes, size_t count);

/* A command packet around a core; its size is returned. */
size_t frame(const uint8_t *core, size_t length, uint8_t *packet);

/* A settings image around fields, in the form that they name, also where the part has it not, and its checksum anew after a change. */
void make_image(const uint8_t *fields, uint8_t *image);
void sign_image(uint8_t *image);

/* Whether an image says that it is of form 2, and where its bodies begin. */
int is_form_2(const uint8_t *image);
size_t fields_at(const uint8_t *image);

#endif
