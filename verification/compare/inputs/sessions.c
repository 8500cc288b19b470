#include "sessions.h"

#include "boards.h"
#include "wire.h"

struct standing read_standing(uint32_t main_size, const uint8_t *record)
{
    struct standing standing = {.phase = record[PHASE_AT],
                                .wrong_count = record[COUNT_AT],
                                .unlocked = record[LOCK_AT] == 1,
                                .sleep = read32(record + SLEEP_AT),
                                .idle = read32(record + IDLE_AT),
                                .main_size = read32(record + MAIN_SIZE_AT),
                                .fields = record + RECORD_FIELDS_AT};
    if (standing.main_size < SECTOR || standing.main_size > MAIN_ROOM)
        standing.main_size = main_size;
    return standing;
}

/* Waits around the session's own limits, around those of document 01, and any. */
static uint32_t choose_wait(struct dice *dice, const struct standing *standing)
{
    static const uint32_t limits[] = {1,     2,     1999,  2000,       2001,       3999,       4000,      9998,
                                      9999,  10000, 10001, 11999,      12000,      12001,      0x7FFFFFFF, 0x80000000,
                                      65536, 65535, 75536, 0xFFFFD8F0, 0xFFFFFFFE, 0xFFFFFFFF};
    uint32_t to_idle_limit = standing->sleep + 10000 - standing->idle;
    if (standing->sleep > 0 && chance(dice, 70))
        return standing->sleep - 1 + (chance(dice, 70) ? 1 + below(dice, 2) : 0);
    switch (below(dice, 24)) {
    case 0:
        return ONE_OF(dice, limits);
    case 1:
        return to_idle_limit - 1;
    case 2:
        return to_idle_limit - below(dice, 3) + 1;
    case 3:
        return 0 - standing->idle + standing->sleep; /* idle and the rest of the wait make 2^32 */
    case 4:
        return chance(dice, 80) ? below(dice, 3000) : (uint32_t)roll(dice);
    case 5:
    case 6:
        return below(dice, 500);
    default:
        return 0;
    }
}

static size_t mostly(struct dice *dice, size_t right, const size_t *wrong, uint32_t count)
{
    return chance(dice, 98) ? right : wrong[below(dice, count)];
}

static size_t choose_settings_size(struct dice *dice)
{
    static const size_t wrong[] = ODD_SETTINGS_SIZES;
    return mostly(dice, SETTINGS_BYTES, wrong, 8);
}

static size_t choose_window_size(struct dice *dice)
{
    static const size_t wrong[] = {0, 1, 1024, 3455, 3457, 4096};
    return WINDOW_BYTES == 0 ? 0 : mostly(dice, WINDOW_BYTES, wrong, 6);
}

static size_t choose_record_size(struct dice *dice)
{
    static const size_t wrong[] = {0,   1, KEPT_BYTES, RECORD_BYTES - 4, RECORD_BYTES - 1, RECORD_BYTES + 1,
                                   128, OTHER_RECORD_BYTES};
    return mostly(dice, RECORD_BYTES, wrong, 8);
}

static size_t choose_fields_size(struct dice *dice)
{
    static const size_t wrong[] = {0, 1, KEPT_BYTES, FORM_AT, FIELDS_BYTES - 1, FIELDS_BYTES + 1, OTHER_FIELDS_BYTES};
    return chance(dice, 85) ? FIELDS_BYTES : ONE_OF(dice, wrong);
}

static size_t choose_reply_size(struct dice *dice)
{
    static const size_t wrong[] = {0, 1, 9, 1728, 1728};
    static const size_t larger[] = {1730, 2048, 4096};
    return chance(dice, 85) ? mostly(dice, REPLY_LEAST, wrong, 5) : ONE_OF(dice, larger);
}

static struct step choose_start(struct dice *dice, uint32_t main_size)
{
    static const uint32_t set[] = {1, 2, 256, 0x01000000, 0x80000000, 0xFFFFFFFF};
    struct step step = {.kind = CALL_START,
                        .number = chance(dice, 94) ? 0 : ONE_OF(dice, set),
                        .fill = chance(dice, 50) ? roll(dice) : 0,
                        .main_size = main_size,
                        .settings_size = choose_settings_size(dice),
                        .window_size = choose_window_size(dice),
                        .record_size = choose_record_size(dice)};
    if (chance(dice, 6))
        step.main_size = choose_odd_main_size(dice);
    if (chance(dice, 1)) /* 3 and 11 both apply */
        step.settings_size = step.window_size = 0;
    return step;
}

static struct step choose_call(struct dice *dice, uint32_t main_size, const uint8_t *record)
{
    static uint8_t packet[PACKET_LARGEST];
    struct standing standing = read_standing(main_size, record);
    struct step step = {.kind = CALL_SESSION, .number = choose_wait(dice, &standing), .fill = roll(dice)};
    step.main_size = read32(record + MAIN_SIZE_AT);
    if (step.main_size > MAIN_ROOM || chance(dice, 1))
        step.main_size = chance(dice, 50) ? choose_main_size(dice) : choose_odd_main_size(dice);
    step.settings_size = choose_settings_size(dice);
    step.window_size = choose_window_size(dice);
    step.record_size = choose_record_size(dice);
    step.reply_size = choose_reply_size(dice);
    give_data(&step, packet, choose_packet(dice, &standing, packet));
    return step;
}

static struct step choose_read(struct dice *dice)
{
    return (struct step){.kind = CALL_READ,
                         .fill = roll(dice),
                         .settings_size = choose_settings_size(dice),
                         .fields_size = choose_fields_size(dice)};
}

static struct step choose_write(struct dice *dice, uint32_t main_size)
{
    uint8_t fields[256];
    struct step step = {.kind = CALL_WRITE, .settings_size = choose_settings_size(dice)};
    noise(dice, fields, sizeof fields);
    choose_contents(dice, main_size, fields);
    if (chance(dice, 40))
        break_contents(dice, fields);
    give_data(&step, fields, choose_fields_size(dice));
    return step;
}

static struct step choose_move(struct dice *dice)
{
    return (struct step){.kind = chance(dice, 50) ? CALL_TO_2 : CALL_TO_1, .settings_size = choose_settings_size(dice)};
}

static struct step choose_mend(struct dice *dice)
{
    static const size_t wrong[] = {0, 1, 7, 9, 16, 140};
    return (struct step){.kind = CALL_MEND,
                         .fill = roll(dice),
                         .settings_size = choose_settings_size(dice),
                         .fields_size = chance(dice, 85) ? COUNTS_BYTES : ONE_OF(dice, wrong)};
}

static struct step choose_rate(struct dice *dice)
{
    static const uint32_t outside[] = {0,   10,  11,  12,  13,      14,         15,        16, 16, 17,
                                       255, 256, 258, 272, 0x10002, 0x80000001, 0xFFFFFFFF};
    return (struct step){.kind = CALL_RATE,
                         .number = chance(dice, 50) ? 1 + below(dice, 9) : ONE_OF(dice, outside)};
}

/* Nothing more happens in the last three phases, and a broken record is only refused again. */
static bool is_over(const struct side *side)
{
    return side->area[AREA_RECORD][PHASE_AT] > PHASE_COMMAND || side->answer >> 56 == 10;
}

struct step choose_step(struct dice *dice, uint32_t main_size, const struct side *side)
{
    bool over = is_over(side) && chance(dice, 70);
    uint32_t which = below(dice, 200);
    if (which < 2)
        return choose_rate(dice);
    if (which < 6)
        return choose_read(dice);
    if (which < 9)
        return choose_write(dice, main_size);
    if (which < 14 || (over && chance(dice, 25)))
        return choose_settings(dice, main_size);
    if (which < 18 || (over && chance(dice, 25)))
        return choose_record(dice, main_size);
    if (which < 20 || over)
        return choose_start(dice, main_size);
    if (which == 20)
        return choose_main(dice, main_size);
    if (HAS_FORM_1 && which < 27)
        return choose_move(dice);
    if (HAS_FORM_1 && which < 33)
        return choose_mend(dice);
    if (WINDOW_BYTES > 0 && which == 33)
        return choose_window(dice);
    return choose_call(dice, main_size, side->area[AREA_RECORD]);
}
