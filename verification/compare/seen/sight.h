#ifndef SIGHT_H
#define SIGHT_H

#include "coverage.h"
#include "finding.h"
#include "script.h"
#include "wire.h"

/* What an observer looks at, and what the observers of single things tell one another. */
struct sight {
    const struct step *step;
    const struct finding *found;
    const uint8_t *before, *record, *reply, *main_flash, *settings, *window, *fields;
    uint64_t answer;
    uint32_t main_size;
    /* of an acknowledged packet: */
    const uint8_t *core;
    size_t length;
};

static inline void seen_if(bool condition, int point)
{
    if (condition)
        seen(point);
}

static inline unsigned refusal_of(uint64_t answer)
{
    return (unsigned)(answer >> 56);
}

static inline bool all_ff(const uint8_t *bytes, size_t count)
{
    while (count > 0 && bytes[count - 1] == 0xFF)
        count--;
    return count == 0;
}

/* images.c: start, the settings calls and the rate. */
void observe_start(const struct sight *sight);
void observe_read(const struct sight *sight);
void observe_write(const struct sight *sight);
void observe_move(const struct sight *sight, int moved, bool to_2);
void observe_mend(const struct sight *sight, const uint8_t *counts);
void observe_rate(uint32_t id);

/* records.c: refusal 10, phases and waits. */
int broken_clauses(const struct sight *sight, int *last);
uint32_t total_before(const struct sight *sight);
void observe_clause(const struct sight *sight);
uint32_t sleep_before(const struct sight *sight);
uint64_t idle_sum(const struct sight *sight);
bool unlocked_now(const struct sight *sight);
void observe_phase(const struct sight *sight);
void observe_wait(const struct sight *sight);
void observe_change(const struct sight *sight);
void observe_silence(const struct sight *sight);

/* ranges.c: where a range lies, and what of it is protected. */
/* What of a range is protected, in the order of the coverage points; the last: nothing. */
enum protection { EVERY_SECTOR, FIRST_SECTOR, LATER_SECTOR, THE_SETTINGS, NOTHING };

bool in_window(uint32_t first, uint64_t count);
bool in_one_region(const struct sight *sight, uint32_t first, uint64_t count);
void observe_edges(const struct sight *sight, uint32_t first, uint32_t count);
bool sector_protected(const struct sight *sight, uint32_t sector);
bool is_far(const struct sight *sight, uint32_t sector, bool protected);
bool settings_protected(const struct sight *sight);
enum protection protection_of(const struct sight *sight, uint32_t first, uint32_t last);
bool program_would_show(const struct sight *sight, enum protection protection, uint32_t first, uint32_t count);
bool erase_would_show(const struct sight *sight, enum protection protection, uint32_t first, uint32_t last);
bool has_skipped(const struct sight *sight, int far);
void observe_beside(const struct sight *sight, uint32_t first, uint32_t last, int point);

/* flash.c: Program, Range erase, Read back and Verify. */
extern bool half_programmed; /* the session has programmed a byte after the settings' image */
void observe_program(const struct sight *sight, int outcome);
void observe_range_erase(const struct sight *sight, int message);
void observe_read_back(const struct sight *sight, int outcome);
void observe_verify(const struct sight *sight, int outcome);

#endif
