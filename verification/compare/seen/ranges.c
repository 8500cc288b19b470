#include "sight.h"

/* ---- Ranges ---- */

bool in_window(uint32_t first, uint64_t count)
{
    return WINDOW_BYTES > 0 && first >= WINDOW_START && first + count <= WINDOW_START + WINDOW_BYTES;
}

bool in_one_region(const struct sight *sight, uint32_t first, uint64_t count)
{
    uint64_t end = first + count;
    return end <= sight->main_size || in_window(first, count) ||
           (first >= SETTINGS_START && end <= (uint64_t)SETTINGS_START + SETTINGS_BYTES);
}

void observe_edges(const struct sight *sight, uint32_t first, uint32_t count)
{
    uint8_t command = sight->core[0];
    uint64_t end = (uint64_t)first + count, settings_end = (uint64_t)SETTINGS_START + SETTINGS_BYTES;
    uint64_t window_end = WINDOW_START + WINDOW_BYTES;
    const bool at[EDGES] = {[MAIN_FIRST] = first == 0 && end <= sight->main_size,
                            [MAIN_TO_END] = end == sight->main_size,
                            [MAIN_OVER_END] = first < sight->main_size && end > sight->main_size,
                            [MAIN_AT_END] = first == sight->main_size,
                            [SETTINGS_OVER_START] = first < SETTINGS_START && end > SETTINGS_START,
                            [SETTINGS_FIRST] = first == SETTINGS_START && end <= settings_end,
                            [SETTINGS_TO_END] = first >= SETTINGS_START && end == settings_end,
                            [SETTINGS_OVER_END] = first >= SETTINGS_START && first < settings_end && end > settings_end,
                            [SETTINGS_AT_END] = first == settings_end,
                            [WINDOW_OVER_START] = first < WINDOW_START && end > WINDOW_START && end <= window_end,
                            [WINDOW_FIRST] = first == WINDOW_START && end <= window_end,
                            [WINDOW_TO_END] = first >= WINDOW_START && end == window_end,
                            [WINDOW_OVER_END] = first >= WINDOW_START && first < window_end && end > window_end,
                            [WINDOW_AT_END] = first == window_end,
                            [PAST_2_32] = end > 0x100000000u};
    for (int edge = 0; edge < EDGES; edge++)
        if (at[edge])
            seen_edge(command, (enum edge)edge);
}

/* ---- Protected places ---- */

bool sector_protected(const struct sight *sight, uint32_t sector)
{
    return sector < 8 * PROTECTION_BYTES && sight->fields[PROTECTION_AT + sector / 8] / (1u << sector % 8) % 2 == 1;
}

/* A sector from the 65th on, protected or open, unlike the one at its place among the first 64. */
bool is_far(const struct sight *sight, uint32_t sector, bool protected)
{
    return sector >= 64 && sector_protected(sight, sector) == protected && sector_protected(sight, sector % 64) != protected;
}

bool settings_protected(const struct sight *sight)
{
    return sight->fields[SETTINGS_PROTECTED_AT] == 1;
}

/* Of a range that lies in one region. */
enum protection protection_of(const struct sight *sight, uint32_t first, uint32_t last)
{
    uint32_t start = first / SECTOR, end = last / SECTOR, count = 0;
    if (first >= SETTINGS_START)
        return settings_protected(sight) ? THE_SETTINGS : NOTHING;
    for (uint32_t sector = start; sector <= end; sector++)
        count += sector_protected(sight, sector);
    if (count == 0)
        return NOTHING;
    if (count == end - start + 1)
        return EVERY_SECTOR;
    return sector_protected(sight, start) ? FIRST_SECTOR : LATER_SECTOR;
}

/* Whether it would show if a refused Program were done, of blank places: in an open sector, where the range has one. */
bool program_would_show(const struct sight *sight, enum protection protection, uint32_t first, uint32_t count)
{
    bool partly = protection == FIRST_SECTOR || protection == LATER_SECTOR, in_main = protection != THE_SETTINGS;
    const uint8_t *flash = in_main ? sight->main_flash + first : sight->settings + (first - SETTINGS_START);
    const uint8_t *data = sight->core + 5;
    for (uint32_t i = 0; i < count; i++)
        if (data[i] != 0xFF && !(partly && sector_protected(sight, (first + i) / SECTOR)))
            return all_ff(flash, count);
    return false;
}

/* The same of a refused Range erase. */
bool erase_would_show(const struct sight *sight, enum protection protection, uint32_t first, uint32_t last)
{
    for (uint32_t sector = first / SECTOR; sector <= last / SECTOR; sector++)
        if (!all_ff(sight->main_flash + sector * SECTOR, SECTOR) &&
            (protection == EVERY_SECTOR || !sector_protected(sight, sector)))
            return true;
    return false;
}

/* Whether an erase of all MAIN has left what a protected sector held, and erased another; `far` is for one from the 65th on. */
bool has_skipped(const struct sight *sight, int far)
{
    bool kept = false, erased = false;
    for (uint32_t sector = 0; sector < sight->main_size / SECTOR; sector++) {
        bool blank = all_ff(sight->main_flash + sector * SECTOR, SECTOR);
        seen_if(is_far(sight, sector, true) && !blank, far);
        seen_if(is_far(sight, sector, true) && !blank && sector == 255, FAR_LAST);
        kept = kept || (sector_protected(sight, sector) && !blank);
        erased = erased || (!sector_protected(sight, sector) && blank);
    }
    return kept && erased;
}

/* A range of MAIN that nothing is protected in, at the edge of a sector that is; `point` is the first of three. */
void observe_beside(const struct sight *sight, uint32_t first, uint32_t last, int point)
{
    uint32_t next = last + 1;
    seen_if(first > 0 && first % SECTOR == 0 && sector_protected(sight, first / SECTOR - 1), point);
    if (next % SECTOR == 0 && sector_protected(sight, next / SECTOR))
        seen(next < sight->main_size ? point + 1 : point + 2);
}
