#include "wide.h"

#include "dice.h"
#include "model/functions.h"
#include "wire.h"

#include <stdio.h>
#include <stdlib.h>
#include <string.h>

/* The front of the one wide area is all that is touched, so that no memory need stand behind the rest. */
enum { FRONT = 8192, MAIN_SIZE = 4096, ANSWERS = 7 };

enum { WIDE_MAIN, WIDE_SETTINGS, WIDE_WINDOW, WIDE_RECORD, WIDE_PACKET, WIDE_REPLY, WIDE_FIELDS, WIDE_COUNTS, WIDE_KINDS };

static const char *const names[WIDE_KINDS] = {"MAIN", "settings", "window", "record", "packet", "reply", "fields", "counts"};
static const size_t sizes[WIDE_KINDS] = {MAIN_SIZE, SETTINGS_BYTES, WINDOW_BYTES, RECORD_BYTES,
                                         8,         REPLY_LEAST,    FIELDS_BYTES, COUNTS_BYTES};

/* What a size that is cut becomes: the right size, or for a reply area, which may be larger, too small a one. */
static const size_t cut_sizes[WIDE_KINDS] = {MAIN_SIZE, SETTINGS_BYTES,  WINDOW_BYTES, RECORD_BYTES,
                                             8,         REPLY_LEAST - 1, FIELDS_BYTES, COUNTS_BYTES};

struct lent {
    uint8_t *area[WIDE_KINDS];
    size_t size[WIDE_KINDS];
};

#define LENT(lent, kind) (lent)->area[kind], (lent)->size[kind]

static void call_all(const struct loader_functions *loader, const struct lent *lent, uint64_t *answers)
{
    answers[0] = loader->call(LENT(lent, WIDE_RECORD), LENT(lent, WIDE_MAIN), LENT(lent, WIDE_SETTINGS),
                              LENT(lent, WIDE_WINDOW), 0, LENT(lent, WIDE_PACKET), LENT(lent, WIDE_REPLY));
    answers[1] = loader->start(0, LENT(lent, WIDE_MAIN), LENT(lent, WIDE_SETTINGS), LENT(lent, WIDE_WINDOW),
                               LENT(lent, WIDE_RECORD));
    answers[2] = loader->settings_read(LENT(lent, WIDE_SETTINGS), LENT(lent, WIDE_FIELDS));
    answers[3] = loader->settings_write(LENT(lent, WIDE_FIELDS), LENT(lent, WIDE_SETTINGS));
    if (!HAS_FORM_1)
        return;
    answers[4] = loader->settings_to_form_2(LENT(lent, WIDE_SETTINGS));
    answers[5] = loader->settings_to_form_1(LENT(lent, WIDE_SETTINGS));
    lent->area[WIDE_SETTINGS][0] ^= 0xFF; /* damaged */
    answers[6] = loader->settings_mend(LENT(lent, WIDE_SETTINGS), LENT(lent, WIDE_COUNTS));
}

/* A blank board in the command phase that is handed an Info, all in narrow areas but one. */
static void lay_out(struct lent *lent, int wide, size_t more, uint8_t *wide_area, uint8_t (*narrow)[FRONT])
{
    struct dice dice = {1};
    memset(wide_area, 0, FRONT);
    memset(narrow, 0, WIDE_KINDS * sizeof *narrow);
    for (int kind = 0; kind < WIDE_KINDS; kind++) {
        lent->area[kind] = kind == wide ? wide_area : narrow[kind];
        lent->size[kind] = kind == wide ? cut_sizes[kind] + more : sizes[kind];
    }
    memset(lent->area[WIDE_MAIN], 0xFF, MAIN_SIZE);
    memset(lent->area[WIDE_SETTINGS], 0xFF, SETTINGS_BYTES);
    noise(&dice, lent->area[WIDE_REPLY], FRONT);
    frame((const uint8_t[]){0x19}, 1, lent->area[WIDE_PACKET]);
    memcpy(lent->area[WIDE_FIELDS] + IDS_AT, "\1\0\0\0\1\0\0", 8);
    lent->area[WIDE_FIELDS][FORM_AT] = 2;
    model_functions.start(0, lent->area[WIDE_MAIN], MAIN_SIZE, lent->area[WIDE_SETTINGS], SETTINGS_BYTES,
                          lent->area[WIDE_WINDOW], WINDOW_BYTES, lent->area[WIDE_RECORD], RECORD_BYTES);
    lent->area[WIDE_RECORD][PHASE_AT] = PHASE_COMMAND;
}

static bool wide_area_agrees(int wide, size_t more, uint8_t *wide_area)
{
    static uint8_t narrow[WIDE_KINDS][FRONT], kept[WIDE_KINDS][FRONT];
    uint64_t ours[ANSWERS] = {0}, theirs[ANSWERS] = {0};
    struct lent lent;
    lay_out(&lent, wide, more, wide_area, narrow);
    call_all(&model_functions, &lent, theirs);
    for (int kind = 0; kind < WIDE_KINDS; kind++)
        memcpy(kept[kind], lent.area[kind], FRONT);
    lay_out(&lent, wide, more, wide_area, narrow);
    call_all(&product_functions, &lent, ours);
    bool agree = memcmp(ours, theirs, sizeof ours) == 0;
    for (int kind = 0; kind < WIDE_KINDS; kind++)
        agree = agree && memcmp(kept[kind], lent.area[kind], FRONT) == 0;
    if (!agree)
        printf("difference: %s area of %zu + %zu bytes\n", names[wide], cut_sizes[wide], more);
    return agree;
}

static bool size_agrees(size_t more, uint8_t *wide_area)
{
    bool agree = true;
    for (int wide = 0; wide < WIDE_KINDS; wide++)
        agree = wide_area_agrees(wide, more, wide_area) && agree;
    return agree;
}

bool wide_sizes_agree(void)
{
    static uint8_t small[FRONT + 65536];
    uint8_t *large = NULL;
    bool agree = size_agrees(256, small) && size_agrees(65536, small);
#if SIZE_MAX > UINT32_MAX && !defined(__SANITIZE_ADDRESS__)
    large = malloc((size_t)UINT32_MAX + 1 + FRONT);
#endif
    if (large == NULL)
        fputs("sizes above 2^32 are left out: no such area can be had here\n", stderr);
    else
        agree = size_agrees((size_t)UINT32_MAX + 1, large) && agree;
    free(large);
    return agree;
}
