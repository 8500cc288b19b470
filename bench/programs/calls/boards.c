/* Boards and packets of the cases. */
#include "bits.h"
#include "cases.h"
#include "verification/model/functions.h"

#include <string.h>

enum { RESET_PASSWORD_SIZE = 16, FRAME_SIZE = 7, CHECKSUM_AT = 1020 };

/* Where things stand in a record, and in fields. */
enum { AT_PHASE, AT_LOCK, AT_WRONG, AT_RATE, AT_SLEEP, AT_TRIES = 12 };
enum { RESET_AT = 32, MODE_AT = 48, ALERT_AT, READOUT_AT, VERSION_AT = 62, PROTECTION_AT = 66 };
enum { NAME_AT = PROTECTION_AT + PROTECTION_SIZE, FORM_AT = NAME_AT + 64 };

static void put32(uint8_t *to, uint32_t number)
{
    for (int i = 0; i < 4; i++)
        to[i] = (uint8_t)(number >> 8 * i);
}

static void fill_fields(uint8_t *fields, enum preset preset)
{
    memset(fields, 0, FIELDS_SIZE);
    for (int i = 0; i < MODE_AT; i++)
        fields[i] = (uint8_t)(i + 1);
    fields[MODE_AT] = preset == RESET_WANTS_PASSWORD ? 2 : 1;
    fields[ALERT_AT] = preset == ALERT_RESETS ? 1 : 0;
    fields[READOUT_AT] = 0xBB;
    fields[READOUT_AT + 1] = 0xAA;
    put32(fields + VERSION_AT, 256);
    bool named = preset == FORM_2 || PROTECTION_SIZE > 8; /* the larger part has no other form */
    memset(fields + NAME_AT, named ? 'A' : 0xFF, FORM_AT - NAME_AT);
    fields[FORM_AT] = named ? 2 : 1;
    if (preset == HALF_PROTECTED)
        memset(fields + PROTECTION_AT, 0x55, PROTECTION_SIZE);
    if (preset == ALL_PROTECTED)
        memset(fields + PROTECTION_AT, 0xFF, PROTECTION_SIZE);
}

static void fill_settings(struct board *board, enum preset preset)
{
    fill_fields(board->fields, preset);
    model_functions.settings_write(board->fields, FIELDS_SIZE, board->settings, SETTINGS_SIZE);
    if (preset == BLANK)
        memset(board->settings, 0xFF, SETTINGS_SIZE);
    if (preset == DAMAGED_IMAGE)
        board->settings[CHECKSUM_AT] ^= 1;
}

static void fill_record(struct board *board, size_t main_size, enum state state)
{
    static const uint8_t phases[] = {[UNLOCKED] = 1, [LOCKED] = 1, [TWO_WRONG] = 1, [IN_DETECT] = 0,
                                     [ASLEEP] = 1, [ENDED] = 3, [NOT_VALID] = 1};
    model_functions.start(0, board->main_flash, main_size, board->settings, SETTINGS_SIZE, board->window, WINDOW_SIZE,
                          board->record, RECORD_SIZE);
    board->record[AT_PHASE] = phases[state];
    board->record[AT_LOCK] = state == UNLOCKED;
    if (state == TWO_WRONG)
        board->record[AT_WRONG] = board->record[AT_TRIES] = 2;
    if (state == ASLEEP)
        put32(board->record + AT_SLEEP, 2000);
    if (state == NOT_VALID)
        board->record[AT_RATE] = 10;
}

/* The core after its code; answers how many bytes it has. */
static size_t fill_body(const struct bench_case *bench_case, const struct board *board, uint8_t *body)
{
    switch (bench_case->body) {
    case RATE_ID:
        body[0] = (uint8_t)bench_case->first;
        return 1;
    case TWO_NUMBERS:
        put32(body, bench_case->first);
        put32(body + 4, bench_case->second);
        return 8;
    case DATA: /* 0xFF, so that the next call finds blank places too */
        put32(body, bench_case->first);
        memset(body + 4, 0xFF, bench_case->second);
        return 4 + bench_case->second;
    case PASSWORD:
    case WRONG_PASSWORD: /* wrong in the byte `first` */
        memcpy(body, board->fields, PASSWORD_SIZE);
        body[bench_case->first] ^= bench_case->body == WRONG_PASSWORD;
        return PASSWORD_SIZE;
    case RESET_PASSWORD:
        memcpy(body, board->fields + RESET_AT, RESET_PASSWORD_SIZE);
        return RESET_PASSWORD_SIZE;
    default:
        return 0;
    }
}

static void fill_packet(const struct bench_case *bench_case, struct board *board)
{
    uint8_t *packet = board->packet, *core = packet + 3;
    board->packet_size = 0;
    if (bench_case->code == 0)
        return;
    core[0] = bench_case->code;
    size_t length = 1 + fill_body(bench_case, board, core + 1);
    packet[0] = bench_case->damage == WRONG_HEADER ? 0x08 : 0x80;
    packet[1] = (uint8_t)length;
    packet[2] = (uint8_t)(length >> 8);
    put32(core + length, checksum_by_bits(core, length) ^ (bench_case->damage == WRONG_CHECKSUM));
    board->packet_size = length + FRAME_SIZE;
}

/* The places of a Program are blank, but for the last byte where it is to be told that they are not. The window takes bytes over any. */
static void blank_places(const struct bench_case *bench_case, struct board *board)
{
    if (bench_case->body != DATA || (bench_case->first >= WINDOW_AT && bench_case->first < SETTINGS_AT))
        return;
    uint8_t *places = bench_case->first == SETTINGS_AT ? board->settings : board->main_flash + bench_case->first;
    memset(places, 0xFF, bench_case->second);
    if (bench_case->answer == DETAILED_ERROR_REPLY)
        places[bench_case->second - 1] = 0;
}

void make_board(const struct bench_case *bench_case, struct board *board)
{
    uint32_t noise = 1;
    for (size_t i = 0; i < MAIN_MOST; i++) {
        noise = noise * 1664525u + 1013904223u;
        board->main_flash[i] = (uint8_t)(noise >> 24);
    }
    fill_settings(board, bench_case->preset);
    fill_record(board, main_size_of(bench_case), bench_case->state);
    blank_places(bench_case, board);
    fill_packet(bench_case, board);
}
