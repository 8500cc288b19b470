#include "sight.h"

/* ---- Program and Range erase ---- */

/* A Program that finds a word that is not blank, and no protected place. */
static void observe_written(const struct sight *sight, uint32_t first, uint32_t count)
{
    const struct finding *found = sight->found;
    int point = sight->core[0] == 0x24 ? FAST_WRITTEN_FIRST : WRITTEN_FIRST;
    if (found->written == 1 && found->words > 1)
        seen(found->first_written  ? point
             : found->last_written ? point + WRITTEN_LAST - WRITTEN_FIRST
                                   : point + WRITTEN_BETWEEN - WRITTEN_FIRST);
    seen_if(all_ff(sight->core + 5, count), point + WRITTEN_ONES - WRITTEN_FIRST);
    seen_if(first >= SETTINGS_START, point + WRITTEN_SETTINGS - WRITTEN_FIRST);
    seen_if(first >= SETTINGS_START + IMAGE_END, HALF_WRITTEN);
}

bool half_programmed;

/* A Program that is done, of data that are not all 0xFF. */
static void observe_blank(const struct sight *sight, uint32_t first)
{
    int point = sight->core[0] == 0x24 ? BLANK_MAIN_FAST : BLANK_MAIN;
    bool fast = sight->core[0] == 0x24;
    seen(first < sight->main_size ? point : point + BLANK_SETTINGS - BLANK_MAIN);
    seen_if(sight->found->beside_written, point + BLANK_BESIDE - BLANK_MAIN);
    if (first >= SETTINGS_START + IMAGE_END) {
        seen(fast ? HALF_FAST : HALF_PROGRAM);
        half_programmed = true;
    }
    seen_if(first < sight->main_size && is_far(sight, first / SECTOR, false), fast ? FAR_FAST_OPEN : FAR_PROGRAM_OPEN);
}

/* A Program that lies in one region and is aligned. */
static void observe_whole_program(const struct sight *sight, int outcome, uint32_t first, uint32_t count)
{
    bool fast = sight->core[0] == 0x24, written = sight->found->written > 0;
    int not_blank = fast ? OUTCOME_REFUSED : OUTCOME_FLASH_ERROR, done = fast ? OUTCOME_DONE : 0x00;
    enum protection protection = protection_of(sight, first, first + count - 1);
    if (protection != NOTHING) {
        bool would_show = program_would_show(sight, protection, first, count);
        bool refused = outcome == (fast ? OUTCOME_REFUSED : 0x05) && would_show;
        seen_if(refused, (fast ? FAST_ALL : PROGRAM_ALL) + (int)protection);
        seen_if(refused && protection == EVERY_SECTOR && is_far(sight, first / SECTOR, true), fast ? FAR_FAST : FAR_PROGRAM);
        seen_if(written, fast ? FAST_WRITTEN_PROTECTED : WRITTEN_PROTECTED);
    } else if (outcome == not_blank && written) {
        observe_written(sight, first, count);
    } else if (outcome == done) {
        if (!all_ff(sight->core + 5, count))
            observe_blank(sight, first);
        if (first < sight->main_size && !fast)
            observe_beside(sight, first, first + count - 1, BESIDE_PROGRAM_AFTER);
    }
}

/* A Program that lies in the window. */
static void observe_stored(const struct sight *sight, uint32_t first, uint32_t count)
{
    seen_if(first % 2 == 1, STORED_ODD);
    seen_if(count % 2 == 1, STORED_ODD_COUNT);
    seen_if(count == 1, STORED_ONE);
    seen_if(count == CORE_LARGEST - 5, STORED_1716);
    seen_if(sight->core[0] == 0x24, STORED_FAST);
    seen_if(sight->found->and_differs, STORED_OVER);
    seen_if(all_ff(sight->fields + PROTECTION_AT, PROTECTION_BYTES) && settings_protected(sight), STORED_PROTECTED);
}

/* Where the other part has its window, and this one has none. */
static bool at_absent_window(uint32_t first, uint64_t count)
{
    return WINDOW_BYTES == 0 && first >= WINDOW_START && first + count <= WINDOW_START + WINDOW_SPAN;
}

void observe_program(const struct sight *sight, int outcome)
{
    uint32_t first = read32(sight->core + 1), count = (uint32_t)sight->length - 5;
    bool aligned = first % WORD == 0 && count % WORD == 0;
    observe_edges(sight, first, count);
    seen_if(outcome == 0x05 && !aligned, RANGE_AND_ALIGNMENT);
    seen_if(outcome == 0x0A && count % WORD == 0, ALIGNMENT_ADDRESS);
    seen_if(outcome == 0x0A && first % WORD == 0, ALIGNMENT_COUNT);
    seen_if(outcome == 0x0A && count % WORD == 0 && first % WORD == WORD / 2, ALIGNMENT_HALF);
    seen_if(outcome == 0x0A && first % WORD == 0 && count % WORD == WORD / 2, ALIGNMENT_HALF_COUNT);
    seen_if(outcome == 0x05 && at_absent_window(first, count), ABSENT_PROGRAM);
    seen_if(outcome == OUTCOME_REFUSED && at_absent_window(first, count), ABSENT_FAST);
    if (!in_one_region(sight, first, count)) {
        seen_if(first < sight->main_size && sector_protected(sight, first / SECTOR),
                sight->core[0] == 0x24 ? OUTSIDE_FAST : OUTSIDE_PROGRAM);
        return;
    }
    if (in_window(first, count)) {
        observe_stored(sight, first, count);
        return;
    }
    seen_if(!aligned && sight->found->bytes_written,
            sight->core[0] == 0x24 ? FAST_WRITTEN_UNALIGNED : WRITTEN_UNALIGNED);
    if (aligned)
        observe_whole_program(sight, outcome, first, count);
    else if (outcome == 0x0A && protection_of(sight, first, first + count - 1) != NOTHING)
        seen(first < sight->main_size ? ALIGNMENT_SECTOR : ALIGNMENT_SETTINGS);
}

/* A Range erase that lies in MAIN. */
static void observe_whole_erase(const struct sight *sight, int message, uint32_t start, uint32_t end)
{
    enum protection protection = protection_of(sight, start, end);
    if (protection != NOTHING && message == 0x05 && erase_would_show(sight, protection, start, end)) {
        seen(ERASE_ALL + (int)protection);
        seen_if(protection == LATER_SECTOR && !sector_protected(sight, end / SECTOR), ERASE_BETWEEN);
        seen_if(start / SECTOR == end / SECTOR && is_far(sight, start / SECTOR, true), FAR_ERASE);
    }
    if (protection == NOTHING && message == 0x00) {
        seen_if(is_far(sight, start / SECTOR, false), FAR_ERASE_OPEN);
        seen_if(start % SECTOR == SECTOR - 1 && end % SECTOR == 0, ERASE_EDGES);
        observe_beside(sight, start, end, BESIDE_ERASE_AFTER);
    }
}

void observe_range_erase(const struct sight *sight, int message)
{
    uint32_t start = read32(sight->core + 1), end = read32(sight->core + 5), last = sight->main_size - 1;
    seen_if(start == 0 && end == last, ERASE_WHOLE);
    seen_if(start <= last && end == last, ERASE_LAST);
    seen_if(start <= last && end == last + 1, ERASE_PAST);
    seen_if(start == last + 1 && end >= start, ERASE_START_PAST);
    seen_if(start == end && end <= last, ERASE_ONE);
    seen_if(start == end + 1 && start <= last, ERASE_BACKWARDS);
    seen_if(start <= last && end > last && sector_protected(sight, start / SECTOR), OUTSIDE_ERASE);
    seen_if(start <= last && end < start && sector_protected(sight, end / SECTOR), OUTSIDE_BACKWARDS);
    seen_if(start <= end && in_window(start, (uint64_t)end - start + 1), WINDOW_ERASE);
    if (start <= end && end <= last)
        observe_whole_erase(sight, message, start, end);
}

static bool shows_protected(const struct sight *sight)
{
    uint32_t first = read32(sight->core + 1);
    return protection_of(sight, first, first + read32(sight->core + 5) - 1) != NOTHING;
}

void observe_read_back(const struct sight *sight, int outcome)
{
    uint32_t count = read32(sight->core + 5);
    bool window = in_window(read32(sight->core + 1), count);
    observe_edges(sight, read32(sight->core + 1), count);
    seen_if(outcome == 0x05 && at_absent_window(read32(sight->core + 1), count), ABSENT_READ);
    seen_if(outcome == OUTCOME_DATA && read32(sight->core + 1) >= SETTINGS_START + IMAGE_END, HALF_READ);
    seen_if(outcome == OUTCOME_DATA && shows_protected(sight), PLACE_READ);
    seen_if(outcome == OUTCOME_DATA && window, WINDOW_READ);
    seen_if(outcome == 0x09 && window, WINDOW_READ_OFF);
    seen_if(count == 0 && outcome == 0x05, READ_0);
    seen_if(count == 1720 && outcome == OUTCOME_DATA, READ_1720);
    seen_if(count == 1721 && outcome == 0x05 && in_one_region(sight, read32(sight->core + 1), count), READ_1721);
}

void observe_verify(const struct sight *sight, int outcome)
{
    uint32_t first = read32(sight->core + 1), count = read32(sight->core + 5);
    observe_edges(sight, first, count);
    seen_if(outcome == 0x05 && at_absent_window(first, count), ABSENT_VERIFY);
    seen_if(outcome == OUTCOME_DATA && shows_protected(sight), PLACE_VERIFY);
    seen_if(outcome == 0x0B && in_window(first, count), WINDOW_VERIFY_SMALL);
    seen_if(outcome == 0x05 && first == WINDOW_START && count == 1024, WINDOW_VERIFY_1024);
    seen_if(outcome == 0x05 && first == WINDOW_START && count == WINDOW_BYTES, WINDOW_VERIFY_WHOLE);
    seen_if(outcome == 0x05 && first == 0x20000000 && count == 1024, WINDOW_VERIFY_EXAMPLE);
    seen_if(count == VERIFY_LEAST - 1 && outcome == 0x0B, VERIFY_SHORT);
    seen_if(count == VERIFY_LEAST && outcome == OUTCOME_DATA, VERIFY_ENOUGH);
    seen_if(count == 1024 && outcome == 0x0B, VERIFY_1024);
    seen_if(count == MAIN_LARGEST && outcome == OUTCOME_DATA, VERIFY_MOST);
    seen_if(count == MAIN_LARGEST + 1 && outcome == 0x05, VERIFY_OVER);
}
