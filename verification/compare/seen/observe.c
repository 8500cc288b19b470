#include "observe.h"

#include "sight.h"

/* ---- The other commands ---- */

/* What became of bytes after the settings' image, where both flash regions were erased; `kept` is for protected settings. */
static void observe_half(const struct sight *sight, int erased, int kept)
{
    bool blank = all_ff(sight->settings + IMAGE_END, SETTINGS_BYTES - IMAGE_END);
    if (!sight->found->second_half)
        return;
    seen_if(half_programmed && blank, erased);
    seen_if(settings_protected(sight) && !blank, kept);
    half_programmed = half_programmed && !blank;
}

static void observe_alert(const struct sight *sight)
{
    uint8_t alert = sight->fields[ALERT_AT];
    seen((sight->before[COUNT_AT] == 3 ? ALERT_0_LATER : ALERT_0_THIRD) + alert);
    seen_if(sight->answer >> 32 & 1, BURN);
    if (alert != 1)
        return;
    seen(ALERT_RESET_MODE_0 + sight->fields[RESET_MODE_AT]);
    seen_if(has_skipped(sight, FAR_ALERT), SECTOR_ALERT);
    observe_half(sight, HALF_ALERT, HALF_KEPT_ALERT);
    seen_if(!all_ff(sight->window, WINDOW_BYTES), WINDOW_ALERT);
    seen_if(settings_protected(sight) && !all_ff(sight->settings, SETTINGS_BYTES), SETTINGS_ALERT);
}

static void observe_total(const struct sight *sight, int message)
{
    uint32_t before = total_before(sight), after = read32(sight->record + TRIES_AT);
    bool wrong = message == 0x02 || message == 0x03, more = wrong && after == before + 1;
    seen_if(more && before == 0, WRONG_AT_0);
    seen_if(more && before == 3, WRONG_AT_3);
    seen_if(more && before == 65534, WRONG_AT_65534);
    seen_if(more && sight->before[COUNT_AT] == 3, WRONG_LATER);
    seen_if(more && unlocked_now(sight), WRONG_UNLOCKED);
    seen_if(wrong && before == 65535 && after == before, TOTAL_STOPS);
    seen_if(message == 0x00 && sight->before[COUNT_AT] > 0 && after == before, TOTAL_KEPT);
}

static void observe_unlock(const struct sight *sight, int message)
{
    observe_total(sight, message);
    if (message == 0x03)
        observe_alert(sight);
    seen_if(message == 0x00 && all_ff(sight->settings, SETTINGS_BYTES) && !all_ff(sight->fields + PASSWORD_AT, 32),
            PASSWORD_KEPT);
}

static void observe_factory_reset(const struct sight *sight, int message)
{
    uint8_t mode = sight->fields[RESET_MODE_AT];
    seen_if(mode == 2 && message == 0x08, sight->length == 1 ? FACTORY_NONE : FACTORY_WRONG);
    if (message != 0x00)
        return;
    seen(mode == 2 ? FACTORY_RIGHT : sight->length == 1 ? FACTORY_OPEN : FACTORY_OPEN_17);
    seen_if(has_skipped(sight, FAR_FACTORY), SECTOR_FACTORY);
    observe_half(sight, HALF_FACTORY, HALF_KEPT_FACTORY);
    seen_if(!all_ff(sight->window, WINDOW_BYTES), WINDOW_FACTORY);
    seen_if(settings_protected(sight) && !all_ff(sight->settings, SETTINGS_BYTES), SETTINGS_FACTORY);
}

static void observe_info(const struct sight *sight)
{
    uint32_t pointer = read32(sight->fields + POINTER_AT), size = sight->main_size;
    bool even = pointer % VERSION_BYTES == 0, inside = pointer < size - VERSION_BYTES;
    seen_if(even && inside, VERSION_INSIDE);
    seen_if(pointer == size - VERSION_BYTES, VERSION_LAST);
    seen_if(pointer == size, VERSION_OVER);
    seen_if(pointer > size - VERSION_BYTES && pointer < size, VERSION_CUT);
    seen_if(!even && inside, VERSION_UNEVEN);
    seen_if(pointer % VERSION_BYTES == VERSION_BYTES / 2 && inside, VERSION_HALF);
    seen_if(pointer == 0u - VERSION_BYTES, VERSION_TOP);
}

static int judge_fast(const struct sight *sight)
{
    if (!unlocked_now(sight))
        return FAST_LOCKED;
    if (sight->length < 6)
        return FAST_LENGTH;
    uint32_t first = read32(sight->core + 1), count = (uint32_t)sight->length - 5;
    if (!in_one_region(sight, first, count))
        return FAST_RANGE;
    if (in_window(first, count))
        return -1;
    if (first % WORD != 0 || count % WORD != 0)
        return FAST_ALIGNMENT;
    if (protection_of(sight, first, first + count - 1) != NOTHING)
        return FAST_PROTECTED;
    return sight->found->written > 0 ? FAST_WRITTEN : -1;
}

/* What became of a command that gets no core reply. */
static int silent_outcome(const struct sight *sight)
{
    bool done = sight->core[0] == 0x52 || sight->length == 1;
    if (sight->core[0] == 0x24) {
        int refusal = judge_fast(sight);
        seen_if(refusal >= 0, refusal);
        done = refusal < 0;
    }
    return done ? OUTCOME_DONE : OUTCOME_REFUSED;
}

/* ---- Replies of the command phase ---- */

static void observe_refused_packet(const struct sight *sight)
{
    const struct step *step = sight->step;
    uint8_t acknowledgement = sight->reply[0];
    uint32_t length = step->data_size >= 3 ? read16(step->data + 1) : 0;
    if (acknowledgement == 0x55)
        seen(step->data_size < 3 ? ACK_55_SHORT : ACK_55_SIZE);
    else if (acknowledgement == 0x56)
        seen(length != 2 ? ACK_56_LENGTH : ACK_56_ID);
    else
        seen(ACK_51 + acknowledgement - 0x51);
    if (acknowledgement == 0x56) {
        uint8_t id = step->data[4];
        seen_outcome(0x52, OUTCOME_REFUSED);
        seen_if(length == 2 && id >= 0x0A && id <= 0x11, ACK_56_0A + id - 0x0A);
    }
    seen_if(idle_sum(sight) > 0 && idle_sum(sight) < 10000, IDLE_KEPT);
    seen_if(length == 1722 && step->data_size == 1729 && acknowledgement == 0x54, LENGTH_1722);
    seen_if(length == 65535 && step->data_size == 65542 && acknowledgement == 0x54, LENGTH_65535);
}

static void observe_idle(const struct sight *sight, int outcome)
{
    if (idle_sum(sight) == 0 || idle_sum(sight) >= 10000)
        return;
    seen_if(outcome == 0x04, IDLE_UNKNOWN);
    seen_if(outcome > 0x00 && outcome <= 0x0B && outcome != 0x04, IDLE_CLEARED);
    seen_if(outcome == OUTCOME_FLASH_ERROR, IDLE_CLEARED_WRITTEN);
    seen_if(outcome == OUTCOME_REFUSED, IDLE_CLEARED_SILENT);
}

static void observe_command(const struct sight *sight, int outcome)
{
    uint8_t command = sight->core[0];
    bool open = unlocked_now(sight) && outcome != 0x06;
    if (command == 0x21)
        observe_unlock(sight, outcome);
    if (command == 0x19 && outcome == OUTCOME_DATA)
        observe_info(sight);
    if (command == 0x15 && outcome == 0x00) {
        seen_if(has_skipped(sight, FAR_MASS), SECTOR_MASS);
        seen_if(!all_ff(sight->window, WINDOW_BYTES), WINDOW_MASS);
    }
    if (command == 0x30 && open)
        observe_factory_reset(sight, outcome);
    if (command == 0x23 && open)
        observe_range_erase(sight, outcome);
    if ((command == 0x20 || command == 0x24) && open && sight->length >= 6)
        observe_program(sight, outcome);
    if (command == 0x29 && open)
        observe_read_back(sight, outcome);
    if (command == 0x26 && open)
        observe_verify(sight, outcome);
}

static int core_outcome(const uint8_t *core)
{
    if (core[0] == 0x3B)
        return core[1] % OUTCOME_DATA;
    return core[0] == 0x3A ? OUTCOME_FLASH_ERROR : OUTCOME_DATA;
}

static void observe_acknowledged(struct sight *sight, uint32_t reply_length)
{
    int outcome;
    sight->core = sight->step->data + 3;
    sight->length = sight->step->data_size - 7;
    seen(ACK_00);
    seen_if(sight->length == CORE_LARGEST, LENGTH_1721);
    seen_if(reply_length == REPLY_LEAST, REPLY_LARGEST);
    if (reply_length == 1)
        outcome = silent_outcome(sight);
    else
        outcome = core_outcome(sight->reply + 4);
    if (outcome < OUTCOME_DATA)
        seen(MESSAGE_00 + outcome);
    seen_outcome(sight->core[0], outcome);
    observe_idle(sight, outcome);
    observe_command(sight, outcome);
}

static void observe_no_window(const struct sight *sight)
{
    int clause;
    bool broken = sight->step->record_size != RECORD_BYTES || broken_clauses(sight, &clause) > 0;
    seen_if(sight->step->window_size + 1 == WINDOW_BYTES, WINDOW_SHORT);
    seen_if(sight->step->window_size == WINDOW_BYTES + 1, WINDOW_LONG);
    seen(broken ? CALL_11_AND_10 : NO_WINDOW_DETECT + sight->before[PHASE_AT]);
}

static void observe_session(struct sight *sight)
{
    unsigned refusal = refusal_of(sight->answer);
    uint32_t reply_length = (uint32_t)sight->answer;
    size_t window_size = sight->step->window_size;
    seen(refusal == 9 ? CALL_9 : refusal == 10 ? CALL_10 : refusal == 11 ? CALL_11 : CALL_TAKEN);
    seen_if(refusal == 9 && sight->step->reply_size == 1728, REPLY_1728);
    seen_if(refusal == 9 && window_size != WINDOW_BYTES, CALL_9_AND_11);
    if (refusal == 11)
        observe_no_window(sight);
    if (refusal == 10)
        observe_clause(sight);
    if (refusal != 0)
        return;
    observe_phase(sight);
    seen_if(sight->before[COUNT_AT] > 0 && total_before(sight) == sight->before[COUNT_AT], TOTAL_AS_COUNT);
    if (sight->before[PHASE_AT] > PHASE_COMMAND)
        return;
    observe_wait(sight);
    observe_change(sight);
    if (reply_length == 0)
        observe_silence(sight);
    else if (sight->before[PHASE_AT] == PHASE_COMMAND && sight->reply[0] == 0x00)
        observe_acknowledged(sight, reply_length);
    else if (sight->before[PHASE_AT] == PHASE_COMMAND)
        observe_refused_packet(sight);
}

void observe(const struct step *step, const struct finding *found, const struct side *after)
{
    const uint8_t *before = found->record;
    struct sight sight = {.step = step,
                          .found = found,
                          .before = before,
                          .record = after->area[AREA_RECORD],
                          .reply = after->area[AREA_REPLY],
                          .main_flash = after->area[AREA_MAIN],
                          .settings = after->area[AREA_SETTINGS],
                          .window = after->area[AREA_WINDOW],
                          .fields = before + RECORD_FIELDS_AT,
                          .answer = after->answer,
                          .main_size = read32(before + MAIN_SIZE_AT)};
    if (step->kind == CALL_START || step->kind == CALL_WRITE || step->kind == SET_SETTINGS || step->kind == SET_RECORD)
        half_programmed = false;
    if (step->kind == CALL_START)
        observe_start(&sight);
    if (step->kind == CALL_READ)
        observe_read(&sight);
    if (step->kind == CALL_WRITE)
        observe_write(&sight);
    if (step->kind == CALL_TO_2)
        observe_move(&sight, TO_2_MOVED, true);
    if (step->kind == CALL_TO_1)
        observe_move(&sight, TO_1_MOVED, false);
    if (step->kind == CALL_MEND)
        observe_mend(&sight, after->area[AREA_FIELDS]);
    if (step->kind == CALL_RATE)
        observe_rate(step->number);
    if (step->kind == CALL_SESSION)
        observe_session(&sight);
}
