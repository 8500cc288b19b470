#include "sides.h"

#include "verification/model/functions.h"

#include <string.h>

static uint64_t no_start(uint32_t fuse, const uint8_t *main_flash, size_t main_size, const uint8_t *settings,
                         size_t settings_size, const uint8_t *window, size_t window_size, uint8_t *record,
                         size_t record_size)
{
    (void)fuse, (void)main_flash, (void)main_size, (void)settings, (void)settings_size, (void)window, (void)window_size;
    (void)record, (void)record_size;
    return 0;
}

static uint64_t no_call(uint8_t *record, size_t record_size, uint8_t *main_flash, size_t main_size, uint8_t *settings,
                        size_t settings_size, uint8_t *window, size_t window_size, uint32_t wait, const uint8_t *packet,
                        size_t packet_size, uint8_t *reply, size_t reply_size)
{
    (void)record, (void)record_size, (void)main_flash, (void)main_size, (void)settings, (void)settings_size;
    (void)window, (void)window_size, (void)wait, (void)packet, (void)packet_size, (void)reply, (void)reply_size;
    return 0;
}

static uint64_t no_read(const uint8_t *image, size_t image_size, uint8_t *fields, size_t fields_size)
{
    (void)image, (void)image_size, (void)fields, (void)fields_size;
    return 0;
}

static uint64_t no_write(const uint8_t *fields, size_t fields_size, uint8_t *image, size_t image_size)
{
    (void)image, (void)image_size, (void)fields, (void)fields_size;
    return 0;
}

static uint64_t no_move(uint8_t *image, size_t image_size)
{
    (void)image, (void)image_size;
    return 0;
}

static uint64_t no_mend(uint8_t *image, size_t image_size, uint8_t *counts, size_t counts_size)
{
    (void)image, (void)image_size, (void)counts, (void)counts_size;
    return 0;
}

static uint32_t no_rate(uint32_t id)
{
    (void)id;
    return 0;
}

static const struct loader_functions nothing = {no_start, no_call, no_read, no_write, no_move, no_move, no_mend, no_rate};

const char *const side_names[SIDES] = {[OURS] = "ours", [GCC] = "gcc", [CLANG] = "clang", [NOTHING] = "nothing"};

static const struct loader_functions *functions_of(enum which which)
{
    switch (which) {
    case OURS:
        return &product_functions;
    case GCC:
        return &model_functions;
    case CLANG:
        return clang_functions;
    default:
        return &nothing;
    }
}

void begin(struct side *side, enum which which, const struct bench_case *bench_case, const struct board *fresh)
{
    side->bench_case = bench_case;
    side->functions = functions_of(which);
    side->fresh = fresh;
    side->now = *fresh;
    memset(side->reply, 0xA5, sizeof side->reply);
}

void renew_records(void *subject, size_t calls)
{
    struct side *side = subject;
    for (size_t i = 0; i < calls; i++)
        memcpy(side->records[i], side->fresh->record, RECORD_SIZE);
}

static uint64_t call_once(struct side *side, uint8_t *record)
{
    const struct bench_case *bench_case = side->bench_case;
    const struct loader_functions *functions = side->functions;
    struct board *now = &side->now;
    switch (bench_case->function) {
    case CALL:
        return functions->call(record, RECORD_SIZE, now->main_flash, main_size_of(bench_case), now->settings,
                               SETTINGS_SIZE, now->window, window_size_of(bench_case), 0, now->packet, now->packet_size,
                               side->reply, reply_size_of(bench_case));
    case START:
        return functions->start(0, now->main_flash, main_size_of(bench_case), now->settings, SETTINGS_SIZE, now->window,
                                WINDOW_SIZE, record, RECORD_SIZE);
    case SETTINGS_READ:
        return functions->settings_read(now->settings, SETTINGS_SIZE, now->fields, FIELDS_SIZE);
    case SETTINGS_WRITE:
        return functions->settings_write(now->fields, FIELDS_SIZE, now->settings, SETTINGS_SIZE);
    case SETTINGS_MOVES: /* forth and back, so that each call finds the image of the first */
        return functions->settings_to_form_2(now->settings, SETTINGS_SIZE) |
               functions->settings_to_form_1(now->settings, SETTINGS_SIZE);
    case SETTINGS_MEND: /* a byte of the table is bad at each call */
        now->settings[DAMAGED_AT] ^= 0xFF;
        return functions->settings_mend(now->settings, SETTINGS_SIZE, now->fields, COUNTS_SIZE);
    default:
        return functions->rate(6);
    }
}

void make_calls(void *subject, size_t calls)
{
    struct side *side = subject;
    for (size_t i = 0; i < calls; i++)
        side->answers[i] = call_once(side, side->records[i]);
}

static bool answers_right(const struct side *side, size_t calls)
{
    for (size_t i = 0; i < calls; i++)
        if (side->answers[i] != side->bench_case->answer)
            return false;
    bool is_message = side->bench_case->function == CALL && side->answers[0] == 10 && side->reply[4] == 0x3B;
    return !is_message || side->reply[5] == side->bench_case->message;
}

bool sides_agree(const struct side *side, const struct side *model, size_t calls)
{
    for (size_t i = 0; i < calls; i++)
        if (memcmp(side->records[i], model->records[i], RECORD_SIZE) != 0)
            return false;
    return answers_right(side, calls) && answers_right(model, calls) &&
           memcmp(&side->now, &model->now, sizeof side->now) == 0 &&
           memcmp(side->reply, model->reply, sizeof side->reply) == 0;
}
