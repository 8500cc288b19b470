#include "sight.h"

/* ---- Refusal 10 ---- */

static bool main_size_fits(size_t size)
{
    return size >= SECTOR && size <= MAIN_LARGEST && size % SECTOR == 0;
}

/* How many clauses of 10 the record and the lent sizes break, and the last of them. */
int broken_clauses(const struct sight *sight, int *last)
{
    const uint8_t *record = sight->before, *fields = record + RECORD_FIELDS_AT;
    bool unlocked = record[LOCK_AT] == 1, command = record[PHASE_AT] == PHASE_COMMAND;
    uint32_t sleep = read32(record + SLEEP_AT), main_size = read32(record + MAIN_SIZE_AT);
    uint32_t total = read32(record + TRIES_AT);
    const struct {
        bool broken;
        int clause;
    } clauses[] = {{record[PHASE_AT] > 4, CLAUSE_PHASE},
                   {record[LOCK_AT] > 1, CLAUSE_LOCK},
                   {read32(record + IDLE_AT) > 9999, CLAUSE_IDLE},
                   {sleep > 2000, CLAUSE_SLEEP},
                   {record[COUNT_AT] > 3, CLAUSE_COUNT},
                   {total < record[COUNT_AT], CLAUSE_TOTAL_BELOW},
                   {total > 65535, CLAUSE_TOTAL},
                   {record[RATE_AT] == 0, CLAUSE_RATE_0},
                   {record[RATE_AT] > 9 && record[RATE_AT] != LAST_RATE, CLAUSE_RATE},
                   {fields[RESET_MODE_AT] > 2, CLAUSE_MODE},
                   {fields[ALERT_AT] > 2, CLAUSE_ALERT},
                   {fields[SETTINGS_PROTECTED_AT] > 1, CLAUSE_PROTECTED},
                   {fields[ZERO_AT] != 0, CLAUSE_ZERO},
                   {unlocked && !command, CLAUSE_UNLOCKED_OUTSIDE},
                   {sleep > 0 && !command, CLAUSE_SLEEP_OUTSIDE},
                   {unlocked && sleep > 0, CLAUSE_UNLOCKED_SLEEP},
                   {!main_size_fits(main_size), CLAUSE_MAIN},
                   {sight->step->settings_size != SETTINGS_BYTES, CLAUSE_SETTINGS},
                   {sight->step->main_size != main_size, CLAUSE_UNLIKE}};
    int count = 0;
    for (size_t i = 0; i < sizeof clauses / sizeof *clauses; i++)
        if (clauses[i].broken) {
            count++;
            *last = clauses[i].clause;
        }
    return count;
}

uint32_t total_before(const struct sight *sight)
{
    return read32(sight->before + TRIES_AT);
}

void observe_clause(const struct sight *sight)
{
    int clause = 0;
    int broken = broken_clauses(sight, &clause);
    size_t size = sight->step->record_size;
    if (size != RECORD_BYTES) {
        seen_if(broken == 0, size < RECORD_BYTES ? CLAUSE_SHORT : CLAUSE_LONG);
        seen_if(broken == 0 && size == OTHER_RECORD_BYTES, CLAUSE_OTHER);
        return;
    }
    if (broken != 1)
        return;
    seen(clause);
    if (clause == CLAUSE_RATE) {
        uint8_t id = sight->before[RATE_AT];
        seen_if(id == 0x0A || id == 0x0F, id == 0x0A ? CLAUSE_RATE_0A : CLAUSE_RATE_0F);
        seen_if(id == 0x10 || id == 0x11, id == 0x10 ? CLAUSE_RATE_10 : CLAUSE_RATE_11);
    }
    seen_if(clause == CLAUSE_IDLE && read32(sight->before + IDLE_AT) == 10000, CLAUSE_IDLE_EDGE);
    seen_if(clause == CLAUSE_SLEEP && read32(sight->before + SLEEP_AT) == 2001, CLAUSE_SLEEP_EDGE);
    seen_if(clause == CLAUSE_COUNT && sight->before[COUNT_AT] == 4, CLAUSE_COUNT_EDGE);
    seen_if(clause == CLAUSE_TOTAL_BELOW && total_before(sight) + 1 == sight->before[COUNT_AT], CLAUSE_TOTAL_BELOW_EDGE);
    seen_if(clause == CLAUSE_TOTAL && total_before(sight) == 65536, CLAUSE_TOTAL_EDGE);
}

/* ---- Phases and waits ---- */

uint32_t sleep_before(const struct sight *sight)
{
    return read32(sight->before + SLEEP_AT);
}

/* Idle after the wait, before rule (c) looks at it. */
uint64_t idle_sum(const struct sight *sight)
{
    return (uint64_t)read32(sight->before + IDLE_AT) + (sight->step->number - sleep_before(sight));
}

bool unlocked_now(const struct sight *sight)
{
    return sight->before[LOCK_AT] == 1 && idle_sum(sight) < 10000;
}

void observe_phase(const struct sight *sight)
{
    static const int points[] = {IN_DETECT, IN_LOCKED, IN_STANDBY, IN_ENDED, IN_DISABLED};
    int point = points[sight->before[PHASE_AT]];
    if (point == IN_LOCKED && sight->before[LOCK_AT] == 1)
        point = IN_UNLOCKED;
    if (point == IN_LOCKED && sleep_before(sight) > 0)
        point = IN_ASLEEP;
    seen(point);
}

void observe_wait(const struct sight *sight)
{
    uint32_t wait = sight->step->number, sleep = sleep_before(sight);
    bool detect = sight->before[PHASE_AT] == PHASE_DETECT, unlocked = sight->before[LOCK_AT] == 1;
    seen_if(wait == 0xFFFFFFFFu, WAIT_LARGEST);
    if (sleep > 0) {
        seen_if(wait == sleep - 1, WAIT_BELOW_SLEEP);
        seen_if(wait == sleep, WAIT_SLEEP);
        seen_if(wait > sleep, WAIT_OVER_SLEEP);
        seen_if(sleep == 2000 && wait == 1999, WAIT_1999);
        seen_if(sleep == 2000 && wait == 2000, WAIT_2000);
    }
    if (sleep > wait)
        return;
    seen_if(idle_sum(sight) == 9999 && unlocked, WAIT_9999);
    seen_if(idle_sum(sight) == 10000 && unlocked, WAIT_10000);
    seen_if(idle_sum(sight) == 9999 && detect, WAIT_DETECT_9999);
    seen_if(idle_sum(sight) == 10000 && detect, WAIT_DETECT_10000);
    seen_if(idle_sum(sight) > 0xFFFFFFFFu, WAIT_WRAP);
}

void observe_change(const struct sight *sight)
{
    const uint8_t *old = sight->before, *new = sight->record;
    seen_if(old[PHASE_AT] == PHASE_DETECT && new[PHASE_AT] == PHASE_COMMAND, TO_COMMAND);
    seen_if(old[PHASE_AT] == PHASE_DETECT && new[PHASE_AT] == PHASE_STANDBY, TO_STANDBY);
    seen_if(new[PHASE_AT] == PHASE_ENDED, TO_ENDED);
    seen_if(new[PHASE_AT] == PHASE_DISABLED, TO_DISABLED);
    seen_if(old[LOCK_AT] == 0 && new[LOCK_AT] == 1, TO_UNLOCKED);
    if (old[LOCK_AT] == 1 && new[LOCK_AT] == 0 && new[PHASE_AT] == PHASE_COMMAND)
        seen(read32(new + SLEEP_AT) > 0 ? TO_LOCKED_WRONG : TO_LOCKED);
    seen_if(new[RATE_AT] != old[RATE_AT] && new[RATE_AT] != 2, RATE_CHANGED);
    seen_if(new[RATE_AT] == 0x10 && old[RATE_AT] != 0x10, RATE_SET_10);
    seen_if(new[RATE_AT] != 0x10 && old[RATE_AT] == 0x10, RATE_FROM_10);
    seen_if(new[RATE_AT] != old[RATE_AT] && new[RATE_AT] == 2 && read32(new + SLEEP_AT) > 0, RATE_BACK);
}

void observe_silence(const struct sight *sight)
{
    const struct step *step = sight->step;
    bool connect = step->data_size == 8 && step->data[3] == 0x12;
    if (sleep_before(sight) > step->number) {
        seen(SILENT_ASLEEP);
        return;
    }
    seen_if(step->data_size == 0, SILENT_EMPTY);
    seen_if(sight->record[PHASE_AT] == PHASE_DETECT && step->data_size > 0, SILENT_DETECT);
    seen_if(sight->record[PHASE_AT] == PHASE_DETECT && connect, SILENT_DAMAGED_CONNECT);
    seen_if(sight->record[PHASE_AT] == PHASE_STANDBY && connect, SILENT_STANDBY);
}
