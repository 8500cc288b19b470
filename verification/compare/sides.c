#include "sides.h"

#include "dice.h"
#include "model/functions.h"
#include "wire.h"

#include <string.h>

/* Bytes around each area, compared as well, that show a write outside it. */
enum { GUARD = 64, SHIFTS = 8 };

static const size_t rooms[AREAS] = {MAIN_ROOM,  SETTINGS_ROOM, WINDOW_ROOM, RECORD_ROOM,
                                    REPLY_ROOM, FIELDS_ROOM,   PACKET_ROOM};
static const char *const area_names[AREAS] = {"MAIN", "settings", "window", "record", "reply", "fields", "packet"};

enum { ALL_ROOMS = MAIN_ROOM + SETTINGS_ROOM + WINDOW_ROOM + RECORD_ROOM + REPLY_ROOM + FIELDS_ROOM + PACKET_ROOM };
enum { STORE = ALL_ROOMS + AREAS * (2 * GUARD + SHIFTS) };

static uint8_t product_store[STORE], model_store[STORE];

/* How much of MAIN's room, the first of each store, may hold something. */
static size_t main_touched;

static void clear_side(struct side *side, uint8_t *store, uint64_t seed)
{
    size_t rest = MAIN_ROOM + 2 * GUARD + SHIFTS;
    memset(store, 0, main_touched + 2 * GUARD + SHIFTS);
    memset(store + rest, 0, STORE - rest);
    for (int area = 0; area < AREAS; area++) {
        side->area[area] = store + GUARD + (seed + (uint64_t)area) % SHIFTS;
        store += rooms[area] + 2 * GUARD + SHIFTS;
    }
    side->answer = 0;
}

void clear_sides(struct sides *sides, uint64_t seed)
{
    clear_side(&sides->product, product_store, seed);
    clear_side(&sides->model, model_store, seed);
    main_touched = 0;
    sides->main_used = 0;
    sides->packet_used = 0;
}

static void set_bytes(struct sides *sides, enum area area, const uint8_t *bytes, size_t count)
{
    memcpy(sides->product.area[area], bytes, count);
    memcpy(sides->model.area[area], bytes, count);
}

static void set_noise(struct sides *sides, enum area area, uint64_t seed)
{
    struct dice dice = {seed};
    uint8_t *bytes = sides->product.area[area];
    noise(&dice, bytes, rooms[area]);
    memcpy(sides->model.area[area], bytes, rooms[area]);
}

/* A word here and there with one bit that is 0. */
static void write_few(struct dice *dice, uint8_t *bytes, size_t count)
{
    for (size_t at = below(dice, 64); at < count; at += 1 + below(dice, 64))
        bytes[at] ^= (uint8_t)(1u << below(dice, 8));
}

/* Pattern 0: blank; 1: zeros; 2: noise; 3: some sectors noise, the others blank; 4: blank but for a few bits. */
static void set_main(struct sides *sides, const struct step *step)
{
    struct dice dice = {step->fill};
    uint8_t *bytes = sides->product.area[AREA_MAIN];
    for (size_t at = 0; at < step->main_size; at += SECTOR) {
        size_t count = step->main_size - at < SECTOR ? step->main_size - at : SECTOR;
        memset(bytes + at, step->number == 1 ? 0x00 : 0xFF, count);
        if (step->number == 2 || (step->number == 3 && chance(&dice, 50)))
            noise(&dice, bytes + at, count);
        if (step->number == 4)
            write_few(&dice, bytes + at, count);
    }
    memcpy(sides->model.area[AREA_MAIN], bytes, step->main_size);
}

static void prepare(struct sides *sides, const struct step *step)
{
    if (step->main_size > sides->main_used)
        sides->main_used = step->main_size;
    if (sides->main_used > main_touched)
        main_touched = sides->main_used;
    if (step->kind == SET_MAIN)
        set_main(sides, step);
    if (step->kind == SET_WINDOW)
        set_noise(sides, AREA_WINDOW, step->fill);
    if (step->kind == SET_SETTINGS)
        set_bytes(sides, AREA_SETTINGS, step->data, step->data_size);
    if (step->kind == SET_RECORD)
        set_bytes(sides, AREA_RECORD, step->data, step->data_size);
    if (step->kind == CALL_START && step->fill != 0)
        set_noise(sides, AREA_RECORD, step->fill);
    if (step->kind == CALL_READ || step->kind == CALL_MEND)
        set_noise(sides, AREA_FIELDS, step->fill);
    if (step->kind == CALL_WRITE)
        set_bytes(sides, AREA_FIELDS, step->data, step->data_size);
    if (step->kind == CALL_SESSION) {
        set_noise(sides, AREA_REPLY, step->fill);
        set_bytes(sides, AREA_PACKET, step->data, step->data_size);
        if (step->data_size > sides->packet_used)
            sides->packet_used = step->data_size;
    }
}

static void perform(struct side *side, const struct loader_functions *loader, const struct step *step)
{
    uint8_t *const *area = side->area;
    switch (step->kind) {
    case CALL_START:
        side->answer = loader->start(step->number, area[AREA_MAIN], step->main_size, area[AREA_SETTINGS],
                                     step->settings_size, area[AREA_WINDOW], step->window_size, area[AREA_RECORD],
                                     step->record_size);
        break;
    case CALL_SESSION:
        side->answer = loader->call(area[AREA_RECORD], step->record_size, area[AREA_MAIN], step->main_size,
                                    area[AREA_SETTINGS], step->settings_size, area[AREA_WINDOW], step->window_size,
                                    step->number, area[AREA_PACKET], step->data_size, area[AREA_REPLY],
                                    step->reply_size);
        break;
    case CALL_READ:
        side->answer =
            loader->settings_read(area[AREA_SETTINGS], step->settings_size, area[AREA_FIELDS], step->fields_size);
        break;
    case CALL_WRITE:
        side->answer =
            loader->settings_write(area[AREA_FIELDS], step->data_size, area[AREA_SETTINGS], step->settings_size);
        break;
    case CALL_TO_2:
        side->answer = loader->settings_to_form_2(area[AREA_SETTINGS], step->settings_size);
        break;
    case CALL_TO_1:
        side->answer = loader->settings_to_form_1(area[AREA_SETTINGS], step->settings_size);
        break;
    case CALL_MEND:
        side->answer =
            loader->settings_mend(area[AREA_SETTINGS], step->settings_size, area[AREA_FIELDS], step->fields_size);
        break;
    case CALL_RATE:
        side->answer = loader->rate(step->number);
        break;
    default:
        break;
    }
}

void take_step(struct sides *sides, const struct step *step)
{
    prepare(sides, step);
    perform(&sides->product, &product_functions, step);
    perform(&sides->model, &model_functions, step);
}

/* How many bytes of an area, the guards included, can have been touched. */
static size_t compared(const struct sides *sides, int area)
{
    size_t used = rooms[area];
    if (area == AREA_MAIN)
        used = sides->main_used;
    if (area == AREA_PACKET)
        used = sides->packet_used;
    return used + 2 * GUARD;
}

static bool area_agrees(const struct sides *sides, int area)
{
    return memcmp(sides->product.area[area] - GUARD, sides->model.area[area] - GUARD, compared(sides, area)) == 0;
}

bool sides_agree(const struct sides *sides)
{
    bool agree = sides->product.answer == sides->model.answer;
    for (int area = 0; area < AREAS && agree; area++)
        agree = area_agrees(sides, area);
    return agree;
}

static void print_area(FILE *out, const struct sides *sides, int area)
{
    const uint8_t *left = sides->product.area[area] - GUARD, *right = sides->model.area[area] - GUARD;
    size_t first = 0, differing = 0;
    while (left[first] == right[first])
        first++;
    for (size_t i = first; i < compared(sides, area); i++)
        differing += left[i] != right[i];
    fprintf(out, "%s: byte %ld is %02X, the model's %02X; %zu bytes differ\n", area_names[area], (long)first - GUARD,
            left[first], right[first], differing);
}

void print_differences(FILE *out, const struct sides *sides)
{
    if (sides->product.answer != sides->model.answer)
        fprintf(out, "answer: %016llX, the model's %016llX\n", (unsigned long long)sides->product.answer,
                (unsigned long long)sides->model.answer);
    for (int area = 0; area < AREAS; area++)
        if (!area_agrees(sides, area))
            print_area(out, sides, area);
}
