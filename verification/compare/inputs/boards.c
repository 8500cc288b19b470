#include "boards.h"

#include "wire.h"

#include <string.h>

uint32_t choose_main_size(struct dice *dice)
{
    static const uint32_t common[] = COMMON_MAIN_SIZES;
    uint32_t percent = below(dice, 100);
    if (percent < COMMON_PERCENT)
        return ONE_OF(dice, common);
    return percent < COMMON_PERCENT + LARGEST_PERCENT ? MAIN_LARGEST : SECTOR * (1 + below(dice, MAIN_LARGEST / SECTOR));
}

uint32_t choose_odd_main_size(struct dice *dice)
{
    static const uint32_t odd[] = ODD_MAIN_SIZES;
    return chance(dice, 80) ? ONE_OF(dice, odd) : choose_main_size(dice);
}

/* ---- Settings ---- */

static void choose_secret(struct dice *dice, uint8_t *bytes, size_t count)
{
    memset(bytes, chance(dice, 30) ? 0x00 : 0xFF, count);
    if (chance(dice, 75))
        noise(dice, bytes, count);
}

static uint32_t choose_pointer(struct dice *dice, uint32_t main_size)
{
    static const uint32_t far[] = {0xFFFFFFFF,     0u - VERSION_BYTES, 1u - VERSION_BYTES,
                                   SETTINGS_START, 0x20000000,         0x80000000};
    switch (below(dice, 8)) {
    case 0:
        return ONE_OF(dice, far);
    case 1:
        return main_size - VERSION_BYTES;
    case 2:
        return main_size - VERSION_BYTES - 2 + below(dice, VERSION_BYTES + 4);
    case 3:
        return below(dice, main_size);
    case 4: /* half of what it should be a multiple of */
        return below(dice, main_size / VERSION_BYTES) * VERSION_BYTES + VERSION_BYTES / 2;
    default:
        return below(dice, main_size / VERSION_BYTES) * VERSION_BYTES;
    }
}

static void choose_protection(struct dice *dice, uint32_t main_size, uint8_t *bits)
{
    uint32_t last = main_size / SECTOR - 1;
    memset(bits, 0, PROTECTION_BYTES);
    switch (below(dice, last < 64 ? 7 : 9)) {
    case 0:
        memset(bits, 0xFF, PROTECTION_BYTES);
        break;
    case 1:
        noise(dice, bits, PROTECTION_BYTES);
        break;
    case 2:
        bits[0] = 1;
        break;
    case 3:
        bits[last / 8] = (uint8_t)(1u << last % 8);
        break;
    case 4: /* only beyond MAIN, where it has no effect */
        if (last + 1 < 8 * PROTECTION_BYTES)
            bits[(last + 1) / 8] = (uint8_t)(1u << (last + 1) % 8);
        break;
    case 5: /* every second one */
        memset(bits, chance(dice, 50) ? 0x55 : 0xAA, PROTECTION_BYTES);
        break;
    case 7: /* the first 64, and none after */
        memset(bits, 0xFF, 8);
        break;
    case 8: /* all but the first 64 */
        memset(bits + 8, 0xFF, PROTECTION_BYTES - 8);
        break;
    default:
        break;
    }
}

void choose_fields(struct dice *dice, uint32_t main_size, uint8_t *fields)
{
    static const uint16_t readouts[] = {0xAABB, 0xAABB, 0xAABB, 0xAABB, 0xAABB, 0xAABB,
                                        0xBBAA, 0xFFFF, 0x0000, 0xAABA, 0xABBB, 0x00BB};
    choose_secret(dice, fields + PASSWORD_AT, 32);
    choose_secret(dice, fields + RESET_PASSWORD_AT, 16);
    fields[RESET_MODE_AT] = (uint8_t)below(dice, 3);
    fields[ALERT_AT] = (uint8_t)below(dice, 3);
    write16(fields + READOUT_AT, ONE_OF(dice, readouts));
    fields[SETTINGS_PROTECTED_AT] = (uint8_t)chance(dice, 30);
    fields[ZERO_AT] = 0;
    noise(dice, fields + IDS_AT, 8);
    write32(fields + POINTER_AT, choose_pointer(dice, main_size));
    choose_protection(dice, main_size, fields + PROTECTION_AT);
}

void break_fields(struct dice *dice, uint8_t *fields)
{
    static const uint8_t at[] = {RESET_MODE_AT, ALERT_AT, SETTINGS_PROTECTED_AT, ZERO_AT};
    static const uint8_t limit[] = {3, 3, 2, 1};
    uint32_t which = below(dice, 4);
    fields[at[which]] = chance(dice, 60) ? limit[which] : (uint8_t)(limit[which] + below(dice, 256u - limit[which]));
}

/* No name, one of noise, or one of which a single byte at an end is not 0xFF. */
static void choose_name(struct dice *dice, uint8_t *name)
{
    memset(name, 0xFF, NAME_BYTES);
    if (chance(dice, 40))
        noise(dice, name, NAME_BYTES);
    else if (chance(dice, 40))
        name[chance(dice, 50) ? 0 : NAME_BYTES - 1] ^= (uint8_t)(1u << below(dice, 8));
}

void choose_form(struct dice *dice, uint8_t *fields)
{
    bool two = !HAS_FORM_1 || chance(dice, 50);
    write16(fields + FORM_AT, two ? 2 : 1);
    memset(fields + NAME_AT, 0xFF, NAME_BYTES);
    if (two)
        choose_name(dice, fields + NAME_AT);
}

void choose_contents(struct dice *dice, uint32_t main_size, uint8_t *fields)
{
    choose_form(dice, fields);
    choose_fields(dice, main_size, fields);
}

void break_contents(struct dice *dice, uint8_t *fields)
{
    static const uint16_t forms[] = {0, 1, 1, 3, 0x0100, 0x0101, 0x0102, 0x0200, 0xFFFF};
    if (chance(dice, 40))
        break_fields(dice, fields);
    if (chance(dice, 40))
        write16(fields + FORM_AT, ONE_OF(dice, forms));
    if (chance(dice, 60))
        choose_name(dice, fields + NAME_AT);
}

/* ---- Settings images ---- */

/* A form with the other's count, or one that there is not. */
static void break_form(struct dice *dice, uint8_t *image)
{
    if (chance(dice, 50))
        image[2] ^= 6 ^ 7;
    else if (chance(dice, 40))
        image[0] ^= 1 ^ 2;
    else
        image[below(dice, 4)] ^= (uint8_t)(1u << below(dice, 8));
}

static void break_filler(struct dice *dice, uint8_t *image)
{
    uint32_t from = is_form_2(image) ? FILLER_AT_2 : FILLER_AT_1;
    uint32_t ends[] = {from, from, IMAGE_CHECKSUM_AT - 1, FILLER_AT_2};
    uint32_t at = chance(dice, 50) ? ends[below(dice, 4)] : from + below(dice, IMAGE_CHECKSUM_AT - from);
    image[at] ^= (uint8_t)(1u << below(dice, 8));
}

/* A byte after the image, where the settings are larger: at an end, or any. */
static void break_second_half(struct dice *dice, uint8_t *settings)
{
    uint32_t ends[] = {IMAGE_END, SETTINGS_BYTES - 1};
    uint32_t at = chance(dice, 50) ? ends[below(dice, 2)] : IMAGE_END + below(dice, SETTINGS_BYTES - IMAGE_END);
    settings[at] ^= (uint8_t)(1u << below(dice, 8));
}

/* One change that refusal 5, 6, 7 or 8 is about. */
static void break_image(struct dice *dice, uint8_t *image)
{
    uint32_t table = (uint32_t)fields_at(image) - IMAGE_ENTRIES_AT;
    switch (below(dice, 5)) {
    case 0:
        break_form(dice, image);
        break;
    case 1:
    case 2:
        image[IMAGE_ENTRIES_AT + below(dice, table)] ^= (uint8_t)(1u << below(dice, 8));
        break;
    case 3:
        if (IS_AM13E230X && chance(dice, 60))
            break_second_half(dice, image);
        else
            break_filler(dice, image);
        break;
    default:
        break_fields(dice, image + fields_at(image));
    }
}

/* An image that the other part takes, or nearly: with its length of protection; the MSPM0's form 1. */
static void make_other(struct dice *dice, const uint8_t *fields, uint8_t *image)
{
    uint8_t of_form_1[FIELDS_BYTES];
    enum { LENGTH_6_AT = IMAGE_ENTRIES_AT + 8 * 5 + 4, OTHER_PROTECTION = 40 - PROTECTION_BYTES };
    memcpy(of_form_1, fields, FIELDS_BYTES);
    write16(of_form_1 + FORM_AT, 1);
    make_image(IS_AM13E230X && chance(dice, 60) ? of_form_1 : fields, image);
    if (is_form_2(image)) {
        image[LENGTH_6_AT] = OTHER_PROTECTION;
        sign_image(image);
    }
}

/* One byte, anywhere in one of the parts of an image of form 1; the first four bytes tell the form. */
static void damage_byte(struct dice *dice, uint8_t *image)
{
    static const uint16_t parts[] = {0, 4, 52, 100, 106, 126, IMAGE_CHECKSUM_AT, SETTINGS_BYTES};
    uint32_t part = below(dice, 7), size = parts[part + 1] - parts[part];
    image[parts[part] + below(dice, size)] ^= (uint8_t)(1 + below(dice, 255));
}

static void damage_image(struct dice *dice, uint8_t *image)
{
    switch (below(dice, 10)) {
    case 0: /* the checksum differs */
        image[below(dice, SETTINGS_BYTES)] ^= (uint8_t)(1u << below(dice, 8));
        break;
    case 1: /* as if inverted at the end */
        write32(image + IMAGE_CHECKSUM_AT, ~read32(image + IMAGE_CHECKSUM_AT));
        break;
    case 2: /* blank but for one bit */
        memset(image, 0xFF, SETTINGS_BYTES);
        image[below(dice, SETTINGS_BYTES)] ^= (uint8_t)(1u << below(dice, 8));
        break;
    case 3: /* blank but for a right checksum */
        memset(image, 0xFF, SETTINGS_BYTES);
        sign_image(image);
        break;
    case 4:
    case 5:
        damage_byte(dice, image);
        break;
    default:
        break_image(dice, image);
        if (chance(dice, 30))
            break_image(dice, image);
        if (chance(dice, 90))
            sign_image(image);
    }
    if (IS_AM13E230X && chance(dice, 10)) /* blank by the first half alone */
        memset(image, 0xFF, IMAGE_END), break_second_half(dice, image);
}

struct step choose_settings(struct dice *dice, uint32_t main_size)
{
    struct step step = {.kind = SET_SETTINGS};
    uint8_t fields[FIELDS_BYTES], image[SETTINGS_BYTES];
    choose_contents(dice, main_size, fields);
    make_image(fields, image);
    if (chance(dice, 12))
        memset(image, 0xFF, SETTINGS_BYTES);
    else if (chance(dice, 4))
        make_other(dice, fields, image);
    else if (chance(dice, 30))
        damage_image(dice, image);
    give_data(&step, image, SETTINGS_BYTES);
    return step;
}

struct step choose_main(struct dice *dice, uint32_t main_size)
{
    static const uint32_t patterns[] = {0, 0, 1, 2, 3, 3, 4, 4}; /* Program wants blank places */
    return (struct step){.kind = SET_MAIN, .number = ONE_OF(dice, patterns), .fill = roll(dice), .main_size = main_size};
}

struct step choose_window(struct dice *dice)
{
    return (struct step){.kind = SET_WINDOW, .fill = roll(dice)};
}

/* ---- Records ---- */

static void choose_standing(struct dice *dice, uint8_t *record)
{
    static const uint32_t idles[] = {0, 0, 1, 5000, 7999, 8000, 9998, 9999};
    static const uint32_t sleeps[] = {1, 2, 999, 1999, 2000};
    static const uint32_t totals[] = {3, 3, 4, 255, 255, 65534, 65534, 65535};
    memset(record, 0, RECORD_FIELDS_AT);
    record[PHASE_AT] = (uint8_t)(chance(dice, 70) ? PHASE_COMMAND : below(dice, 5));
    record[COUNT_AT] = (uint8_t)below(dice, 4);
    write32(record + TRIES_AT, chance(dice, 40) ? record[COUNT_AT] : ONE_OF(dice, totals));
    record[RATE_AT] = (uint8_t)(chance(dice, 90) ? 1 + below(dice, 9) : LAST_RATE);
    write32(record + IDLE_AT, chance(dice, 70) ? ONE_OF(dice, idles) : below(dice, 10000));
    if (record[PHASE_AT] != PHASE_COMMAND)
        return;
    if (chance(dice, 65))
        record[LOCK_AT] = 1;
    else if (chance(dice, 50))
        write32(record + SLEEP_AT, chance(dice, 70) ? ONE_OF(dice, sleeps) : 1 + below(dice, 2000));
}

/* A number just above a limit, or far above it. */
static uint32_t over(struct dice *dice, uint32_t limit)
{
    return chance(dice, 60) ? limit + 1 : limit + 1 + below(dice, 0xFFFFFFFFu - limit);
}

/* A total below the wrong count. */
static void break_total(struct dice *dice, uint8_t *record)
{
    record[COUNT_AT] = (uint8_t)(1 + below(dice, 3));
    write32(record + TRIES_AT, below(dice, record[COUNT_AT]));
}

/* One clause of refusal 10 broken. */
static void break_record(struct dice *dice, uint8_t *record)
{
    uint32_t clause = below(dice, 13);
    if (clause == 0)
        record[PHASE_AT] = (uint8_t)(chance(dice, 60) ? 5 : 5 + below(dice, 251));
    if (clause == 1)
        record[LOCK_AT] = (uint8_t)(chance(dice, 60) ? 2 : 2 + below(dice, 254));
    if (clause == 2)
        record[COUNT_AT] = (uint8_t)(chance(dice, 60) ? 4 : 4 + below(dice, 252));
    if (clause == 3)
        record[RATE_AT] = (uint8_t)(chance(dice, 30) ? 0 : chance(dice, 80) ? 10 + below(dice, 8) : 10 + below(dice, 246));
    if (clause == 4)
        write32(record + SLEEP_AT, over(dice, 2000));
    if (clause == 5)
        write32(record + IDLE_AT, over(dice, 9999));
    if (clause == 6)
        write32(record + MAIN_SIZE_AT, choose_odd_main_size(dice));
    if (clause == 7)
        break_fields(dice, record + RECORD_FIELDS_AT);
    if (clause == 8)
        record[LOCK_AT] = 1; /* perhaps outside the command phase, or asleep */
    if (clause == 9)
        write32(record + SLEEP_AT, 1 + below(dice, 2000));
    if (clause == 10)
        write32(record + MAIN_SIZE_AT, over(dice, MAIN_LARGEST));
    if (clause == 11)
        break_total(dice, record);
    if (clause == 12)
        write32(record + TRIES_AT, over(dice, 65535));
}

struct step choose_record(struct dice *dice, uint32_t main_size)
{
    struct step step = {.kind = SET_RECORD};
    uint8_t record[RECORD_BYTES];
    choose_standing(dice, record);
    write32(record + MAIN_SIZE_AT, main_size);
    choose_fields(dice, main_size, record + RECORD_FIELDS_AT);
    if (chance(dice, 40))
        break_record(dice, record);
    if (chance(dice, 5))
        break_record(dice, record);
    if (chance(dice, 2))
        noise(dice, record, RECORD_BYTES);
    give_data(&step, record, RECORD_BYTES);
    return step;
}
