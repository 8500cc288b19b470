#include "sight.h"

#include <string.h>

static size_t bytes_not_ff(const uint8_t *bytes, size_t count)
{
    size_t others = 0;
    for (size_t i = 0; i < count; i++)
        others += bytes[i] != 0xFF;
    return others;
}

/* Whether a settings image is blank or as the writer makes it of fields. */
static bool image_accepted(const uint8_t *image)
{
    uint8_t right[SETTINGS_BYTES], fields[FIELDS_BYTES];
    memcpy(fields, image + fields_at(image), KEPT_BYTES);
    memcpy(fields + NAME_AT, image + IMAGE_NAME_AT, NAME_BYTES);
    write16(fields + FORM_AT, read16(image));
    make_image(fields, right);
    return all_ff(image, SETTINGS_BYTES) || memcmp(right, image, SETTINGS_BYTES) == 0;
}

static void observe_entry(uint64_t answer, const uint8_t *image)
{
    uint8_t right[SETTINGS_BYTES], fields[FIELDS_BYTES] = {0};
    uint32_t entry = (uint32_t)answer;
    uint32_t at = IMAGE_ENTRIES_AT + 8 * (entry - 1);
    write16(fields + FORM_AT, read16(image));
    make_image(fields, right);
    while (right[at] == image[at])
        at++;
    seen(ENTRY_1 + (int)entry - 1);
    seen(ENTRY_KIND + (int)((at - IMAGE_ENTRIES_AT) % 8 / 2));
}

static void observe_pair(const uint8_t *image)
{
    uint32_t form = read16(image), count = read16(image + 2);
    seen_if(form == 1 && count == 7, PAIR_1_7);
    seen_if(form == 2 && count == 6, PAIR_2_6);
    seen_if(form == 1 && count == 6, PAIR_1_6);
    seen_if(form == 0 || form > 2 || count < 6 || count > 7, PAIR_OTHER);
}

/* Whether one byte alone is not 0xFF, of those before the checksum. */
static bool alone(const uint8_t *image, size_t from, size_t at)
{
    return all_ff(image + from, at - from) && image[at] != 0xFF && all_ff(image + at + 1, IMAGE_CHECKSUM_AT - at - 1);
}

static bool fields_not_allowed(const uint8_t *fields)
{
    return fields[RESET_MODE_AT] > 2 || fields[ALERT_AT] > 2 || fields[SETTINGS_PROTECTED_AT] > 1 || fields[ZERO_AT] != 0;
}

/* An image that is right up to its checksum, and what stands after it. */
static void observe_second_half(const uint8_t *settings)
{
    size_t written = bytes_not_ff(settings + IMAGE_END, SETTINGS_BYTES - IMAGE_END);
    if (written == 1)
        seen(settings[IMAGE_END] != 0xFF            ? FILLER_1024
             : settings[SETTINGS_BYTES - 1] != 0xFF ? FILLER_2047
                                                    : FILLER_SECOND);
    seen_if(written > 0 && fields_not_allowed(settings + FIELDS_AT_2), FILLER_FIRST);
}

static void observe_filler(const uint8_t *image)
{
    bool two = is_form_2(image);
    size_t from = two ? FILLER_AT_2 : FILLER_AT_1;
    seen_if(!two && alone(image, FILLER_AT_1, FILLER_AT_1), FILLER_126);
    seen_if(two && alone(image, FILLER_AT_2, FILLER_AT_2), FILLER_NAME);
    seen_if(alone(image, from, IMAGE_CHECKSUM_AT - 1), FILLER_LAST);
    if (all_ff(image + from, IMAGE_CHECKSUM_AT - from))
        observe_second_half(image);
}

/* What a refusal of 5 to 7 is about. */
static void observe_image(uint64_t answer, const uint8_t *image)
{
    if (refusal_of(answer) == 5)
        observe_pair(image);
    if (refusal_of(answer) == 6)
        observe_entry(answer, image);
    if (refusal_of(answer) == 7)
        observe_filler(image);
}

static bool is_named(const uint8_t *image)
{
    return is_form_2(image) && !all_ff(image + IMAGE_NAME_AT, NAME_BYTES);
}

/* What is refused of the other part, and of a whole image of form 1 where there is none. */
static void observe_other_part(const struct sight *sight)
{
    enum { LENGTH_6_AT = IMAGE_ENTRIES_AT + 8 * 5 + 4, OTHER_PROTECTION = 40 - PROTECTION_BYTES };
    unsigned refusal = refusal_of(sight->answer);
    const uint8_t *image = sight->settings;
    bool is_start = sight->step->kind == CALL_START;
    seen_if(refusal == 4 && all_ff(image, IMAGE_END), is_start ? START_4_HALF : READ_4_HALF);
    seen_if(refusal == 5 && image_accepted(image) && read16(image) == 1, is_start ? START_5_FORM_1 : READ_5_FORM_1);
    seen_if(is_start && (uint32_t)sight->answer == 6 && is_form_2(image) && image[LENGTH_6_AT] == OTHER_PROTECTION,
            START_6_OTHER);
    seen_if(is_start && refusal == 3 && sight->step->settings_size == OTHER_SETTINGS_BYTES, START_3_OTHER);
    seen_if(is_start && refusal == 10 && sight->step->record_size == OTHER_RECORD_BYTES, START_10_OTHER);
    seen_if(!is_start && refusal == 10 && sight->step->fields_size == OTHER_FIELDS_BYTES, READ_10_OTHER);
}

void observe_start(const struct sight *sight)
{
    unsigned refusal = refusal_of(sight->answer);
    const struct step *step = sight->step;
    size_t size = step->main_size;
    seen(refusal == 10 ? START_10 : refusal == 11 ? START_11 : START_TAKEN + (int)refusal);
    seen_if(refusal == 3 && step->window_size != WINDOW_BYTES, START_3_AND_11);
    seen_if(refusal == 11 && !image_accepted(sight->settings), START_11_AND_4);
    if (refusal == 1)
        seen(step->number == 1 ? FUSE_1 : step->number % 256 == 0 ? FUSE_256 : FUSE_OTHER);
    if (refusal == 2)
        seen(size < SECTOR ? START_SMALL : size > MAIN_LARGEST ? START_LARGE : START_BROKEN);
    seen_if(refusal == 2 && size == 1024, START_1024);
    seen_if(refusal == 2 && size > SECTOR && size < MAIN_LARGEST && size % 1024 == 0, START_HALF_STEP);
    observe_image(sight->answer, sight->settings);
    observe_other_part(sight);
    if (refusal != 0)
        return;
    seen_if(size == SECTOR, START_LEAST);
    seen_if(size == MAIN_LARGEST, START_MOST);
    if (all_ff(sight->settings, SETTINGS_BYTES))
        seen(START_BLANK);
    else
        seen(is_form_2(sight->settings) ? START_FORM_2 : START_FORM_1);
}

void observe_read(const struct sight *sight)
{
    unsigned refusal = refusal_of(sight->answer);
    const uint8_t *image = sight->settings;
    observe_image(sight->answer, image);
    observe_other_part(sight);
    if (refusal != 0) {
        seen(refusal == 10 ? READ_10 : READ_3 + (int)refusal - 3);
        return;
    }
    seen(READ_TAKEN);
    seen_if(is_named(image), READ_NAMED);
    seen(all_ff(image, SETTINGS_BYTES) ? READ_BLANK : is_form_2(image) ? READ_FORM_2 : READ_FORM_1);
}

void observe_write(const struct sight *sight)
{
    unsigned refusal = refusal_of(sight->answer);
    const uint8_t *fields = sight->step->data;
    seen_if(refusal == 3, WRITE_3);
    seen_if(refusal == 10, WRITE_10);
    seen_if(refusal == 10 && sight->step->data_size == OTHER_FIELDS_BYTES, WRITE_10_OTHER);
    seen_if(refusal == 5, WRITE_5);
    seen_if(refusal == 5 && read16(fields + FORM_AT) == 1, WRITE_5_FORM_1);
    seen_if(refusal == 5 && fields_not_allowed(fields), WRITE_5_FIRST);
    seen_if(refusal == 8, WRITE_8);
    seen_if(refusal == 8 && read16(fields + FORM_AT) == 1 && !all_ff(fields + NAME_AT, NAME_BYTES), WRITE_8_FIRST);
    seen_if(refusal == 41, WRITE_41);
    if (refusal != 0)
        return;
    seen(WRITE_TAKEN);
    seen(is_form_2(sight->settings) ? WRITE_FORM_2 : WRITE_FORM_1);
    seen_if(is_named(sight->settings), WRITE_NAMED);
}

/* A move: the points of each stand in the same order, from the one for an image that was moved. A refused image is as it was. */
void observe_move(const struct sight *sight, int moved, bool to_2)
{
    unsigned refusal = refusal_of(sight->answer);
    const uint8_t *image = sight->settings;
    observe_image(sight->answer, image);
    if (refusal == 0)
        seen(all_ff(image, SETTINGS_BYTES) ? moved + 1 : moved);
    else if (refusal == 41)
        seen(TO_1_41);
    else
        seen(moved + 2 + (int)refusal - 3);
    seen_if(refusal == 5 && read16(image) == (to_2 ? 2 : 1) && read16(image + 2) == (to_2 ? 7 : 6), moved + 8);
    seen_if(!to_2 && refusal == 8 && is_named(image), TO_1_8_FIRST);
}

static bool checksum_differs(const uint8_t *image)
{
    uint8_t right[SETTINGS_BYTES];
    memcpy(right, image, SETTINGS_BYTES);
    sign_image(right);
    return memcmp(right, image, SETTINGS_BYTES) != 0;
}

/* What was wrong with an image that was mended, and what was changed of it. */
static void observe_mended(const uint8_t *image, uint32_t table, uint32_t filler, uint32_t values, uint32_t checksum)
{
    const uint8_t *fields = image + FIELDS_AT_1;
    bool one = table + filler + values + checksum == 1;
    seen_if(fields[RESET_MODE_AT] > 2, MEND_MODE);
    seen_if(fields[ALERT_AT] > 2, MEND_ALERT);
    seen_if(fields[SETTINGS_PROTECTED_AT] > 1, MEND_PROTECTED);
    seen_if(fields[ZERO_AT] != 0, MEND_ZERO);
    seen_if(values == 0 && read16(fields + READOUT_AT) != 0xFFFF, MEND_READOUT);
    seen_if(one && table == 1, MEND_TABLE_ALONE);
    seen_if(one && filler == 1, MEND_FILLER_ALONE);
    seen_if(one && values == 1, MEND_VALUES_ALONE);
    seen_if(one && checksum == 1, MEND_CHECKSUM_ALONE);
    seen_if(table + filler + values == 0 && checksum > 1, MEND_SEALED);
    seen_if(checksum >= 1 && checksum <= 3, MEND_CHECKSUM_SOME);
    seen_if(checksum == 4, MEND_CHECKSUM_ALL);
    seen_if(bytes_not_ff(image, SETTINGS_BYTES) == 1, MEND_NEARLY_BLANK);
    seen_if(read16(image + IMAGE_ENTRIES_AT + 2) == 60, MEND_WAS_FORM_2);
}

/* Mending, of an image as it was; the counts stand in the fields area. */
void observe_mend(const struct sight *sight, const uint8_t *counts)
{
    const uint8_t *image = sight->found->image;
    unsigned refusal = refusal_of(sight->answer);
    bool other_size = sight->step->fields_size != COUNTS_BYTES;
    seen_if(refusal == 3, other_size ? MEND_3_FIRST : MEND_3);
    seen_if(refusal == 5, other_size ? MEND_5_FIRST : MEND_5);
    if (refusal == 10)
        seen(!all_ff(image, SETTINGS_BYTES) && checksum_differs(image) ? MEND_10_DAMAGED : MEND_10);
    if (refusal != 0)
        return;
    uint32_t table = read16(counts), filler = read16(counts + 2), values = read16(counts + 4), checksum = read16(counts + 6);
    if (table + filler + values + checksum > 0) {
        seen(MEND_MENDED);
        observe_mended(image, table, filler, values, checksum);
    } else if (all_ff(image, SETTINGS_BYTES)) {
        seen(MEND_BLANK);
    } else {
        seen(is_form_2(image) ? MEND_FORM_2 : MEND_FORM_1);
    }
}

void observe_rate(uint32_t id)
{
    seen_if(id >= 1 && id <= 9, RATE_ID_1 + (int)id - 1);
    seen_if(id == 0, RATE_ID_0);
    seen_if(id == 10, RATE_ID_10);
    seen_if(id >= 11 && id <= 15, RATE_ID_11);
    seen_if(id == 0x10, RATE_ID_16);
    seen_if(id == 0x11, RATE_ID_17);
    seen_if(id > 255, RATE_ID_LARGE);
}
