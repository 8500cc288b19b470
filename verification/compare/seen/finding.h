#ifndef FINDING_H
#define FINDING_H

#include "script.h"
#include "sides.h"
#include "wire.h"

/* What a call finds, looked at before it is made. */
struct finding {
    uint8_t record[RECORD_ROOM];
    uint8_t image[SETTINGS_BYTES]; /* of a call that mends */
    bool second_half;              /* a byte of the settings after the image is not 0xFF */
    /* of a Program, also a fast one, whose range lies in one region of flash; else all are 0: */
    uint32_t words, written; /* how many words there are, and how many of them are not blank */
    bool bytes_written;      /* a byte of the range is not 0xFF, also where it is no whole words */
    bool first_written, last_written, beside_written;
    /* of one whose range lies in the window: */
    bool and_differs; /* old AND new is not the new */
};

struct finding look(const struct step *step, const struct side *side);

#endif
