/* Checks of the C boundary: each refusal and their order, each byte of a record, sizes one off, what stays untouched,
   protected places, the total of wrong passwords, the window, both forms of a settings image, and mending. */

#include "bhorelmu.h"

#include <stdbool.h>
#include <stdio.h>
#include <string.h>

enum { MAIN_SIZE = 4096, SLACK = 16, FIELDS_AT = 52, FIELDS_AT_2 = 60, KEPT_SIZE = 74 };

struct areas {
    uint8_t main_flash[MAIN_SIZE];
    uint8_t settings[BHORELMU_SETTINGS_SIZE + 1];
    uint8_t window[BHORELMU_WINDOW_SIZE + 1];
    uint8_t record[BHORELMU_RECORD_SIZE + 1];
    uint8_t reply[BHORELMU_REPLY_SIZE + SLACK];
    uint8_t fields[BHORELMU_FIELDS_SIZE + 1];
};

static unsigned failures;
static unsigned checks;

static void check(const char *what, unsigned long long wanted, unsigned long long got)
{
    checks++;
    if (wanted == got)
        return;
    failures++;
    printf("%s: wanted %llu, got %llu\n", what, wanted, got);
}

static const uint8_t connect_packet[] = {0x80, 0x01, 0x00, 0x12, 0x3A, 0x61, 0x44, 0xDE};
static const uint8_t info_packet[] = {0x80, 0x01, 0x00, 0x19, 0xB2, 0xB8, 0x96, 0x49};

/* A blank board; the areas that are written to begin with bytes of their own. */
static struct areas blank_board(void)
{
    struct areas areas;
    memset(&areas, 0x5A, sizeof areas);
    memset(areas.main_flash, 0xFF, sizeof areas.main_flash);
    memset(areas.settings, 0xFF, sizeof areas.settings);
    return areas;
}

struct sizes {
    size_t record, main_flash, settings, window, reply;
};

static const struct sizes right_sizes = {BHORELMU_RECORD_SIZE, MAIN_SIZE, BHORELMU_SETTINGS_SIZE, BHORELMU_WINDOW_SIZE,
                                         BHORELMU_REPLY_SIZE};

static uint64_t start(struct areas *areas, uint32_t fuse, struct sizes sizes)
{
    return bhorelmu_start(fuse, areas->main_flash, sizes.main_flash, areas->settings, sizes.settings, areas->window,
                          sizes.window, areas->record, sizes.record);
}

static struct areas started_board(void)
{
    struct areas areas = blank_board();
    check("a blank board starts", 0, start(&areas, 0, right_sizes));
    return areas;
}

static uint64_t call(struct areas *areas, struct sizes sizes, const uint8_t *packet, size_t packet_size)
{
    return bhorelmu_call(areas->record, sizes.record, areas->main_flash, sizes.main_flash, areas->settings, sizes.settings,
                         areas->window, sizes.window, 0, packet, packet_size, areas->reply, sizes.reply);
}

/* A call that must be refused, and leave every byte. */
static void refused(const char *what, unsigned number, struct areas *areas, struct sizes sizes)
{
    struct areas before = *areas;
    uint64_t answer = call(areas, sizes, info_packet, sizeof info_packet);
    check(what, (unsigned long long)number << 56, answer);
    check("a refused call leaves every byte", 0, (unsigned)memcmp(&before, areas, sizeof before) != 0);
}

static void start_refused(const char *what, unsigned number, unsigned entry, struct areas *areas, uint32_t fuse,
                          struct sizes sizes)
{
    struct areas before = *areas;
    uint64_t answer = start(areas, fuse, sizes);
    check(what, (unsigned long long)number << 56 | entry, answer);
    check("a refused start leaves every byte", 0, (unsigned)memcmp(&before, areas, sizeof before) != 0);
}

/* The settings image of the blank settings, written, so that it can be damaged. */
static void write_image(struct areas *areas)
{
    check("blank fields are read", 0,
          bhorelmu_settings_read(areas->settings, BHORELMU_SETTINGS_SIZE, areas->fields, BHORELMU_FIELDS_SIZE));
    check("blank fields are written", 0,
          bhorelmu_settings_write(areas->fields, BHORELMU_FIELDS_SIZE, areas->settings, BHORELMU_SETTINGS_SIZE));
}

/* The checksum of document 01, bit by bit: this file's own. */
static uint32_t checksum(const uint8_t *bytes, size_t count)
{
    uint32_t sum = 0xFFFFFFFFu;
    for (size_t i = 0; i < count; i++) {
        sum ^= bytes[i];
        for (int bit = 0; bit < 8; bit++)
            sum = sum >> 1 ^ (sum & 1u ? 0xEDB88320u : 0u);
    }
    return sum;
}

static void sign_image(struct areas *areas)
{
    uint32_t sum = checksum(areas->settings, 1020);
    for (int i = 0; i < 4; i++)
        areas->settings[1020 + i] = (uint8_t)(sum >> 8 * i);
}

/* One byte of a written image changed, and its checksum put right: in form 1, and in form 2 with a name. */
static struct areas board_with_byte(size_t place, uint8_t value)
{
    struct areas areas = blank_board();
    write_image(&areas);
    areas.settings[place] = value;
    sign_image(&areas);
    return areas;
}

static struct areas named_board(void)
{
    struct areas areas = blank_board();
    write_image(&areas);
    memset(areas.fields + BHORELMU_FIELD_NAME, 'A', BHORELMU_NAME_SIZE);
    areas.fields[BHORELMU_FIELD_FORM] = 2;
    check("a name is written", 0, bhorelmu_settings_write(areas.fields, BHORELMU_FIELDS_SIZE, areas.settings, 1024));
    return areas;
}

static struct areas named_board_with_byte(size_t place, uint8_t value)
{
    struct areas areas = named_board();
    areas.settings[place] = value;
    sign_image(&areas);
    return areas;
}

static void check_start(void)
{
    struct sizes sizes = right_sizes;
    struct areas areas = blank_board();
    struct sizes wrong = {BHORELMU_RECORD_SIZE - 1, MAIN_SIZE - 1, BHORELMU_SETTINGS_SIZE - 1, BHORELMU_WINDOW_SIZE - 1, 0};
    start_refused("the fuse comes first", BHORELMU_FUSE_SET, 0, &areas, 1, wrong);
    start_refused("a fuse of 256 is set", BHORELMU_FUSE_SET, 0, &areas, 256, sizes);
    start_refused("then the size of MAIN", BHORELMU_MAIN_SIZE_WRONG, 0, &areas, 0, wrong);
    wrong.main_flash = MAIN_SIZE;
    start_refused("then the settings area", BHORELMU_SETTINGS_SIZE_WRONG, 0, &areas, 0, wrong);
    wrong.settings = BHORELMU_SETTINGS_SIZE + 1;
    start_refused("one byte long", BHORELMU_SETTINGS_SIZE_WRONG, 0, &areas, 0, wrong);
    wrong.settings = BHORELMU_SETTINGS_SIZE;
    start_refused("then the window", BHORELMU_WINDOW_SIZE_WRONG, 0, &areas, 0, wrong);
    wrong.window = BHORELMU_WINDOW_SIZE + 1;
    start_refused("one byte long", BHORELMU_WINDOW_SIZE_WRONG, 0, &areas, 0, wrong);
    areas.settings[0] = 0;
    start_refused("before a checksum that differs", BHORELMU_WINDOW_SIZE_WRONG, 0, &areas, 0, wrong);
    areas.settings[0] = 0xFF;
    wrong.window = BHORELMU_WINDOW_SIZE;
    start_refused("then the record area, short", BHORELMU_RECORD_NOT_VALID, 0, &areas, 0, wrong);
    wrong.record = BHORELMU_RECORD_SIZE + 1;
    start_refused("or long", BHORELMU_RECORD_NOT_VALID, 0, &areas, 0, wrong);
}

static void check_images(void)
{
    struct sizes wrong = right_sizes;
    wrong.record = 0;
    struct areas areas = board_with_byte(200, 0xFF);
    areas.settings[1020] ^= 1;
    start_refused("checksum", BHORELMU_CHECKSUM_DIFFERS, 0, &areas, 0, wrong);
    areas = board_with_byte(0, 3);
    start_refused("form", BHORELMU_FORM_UNKNOWN, 0, &areas, 0, wrong);
    areas = board_with_byte(0, 2);
    start_refused("form 2 with 6", BHORELMU_FORM_UNKNOWN, 0, &areas, 0, wrong);
    areas = board_with_byte(2, 5);
    start_refused("count", BHORELMU_FORM_UNKNOWN, 0, &areas, 0, wrong);
    areas = board_with_byte(2, 7);
    start_refused("form 1 with 7", BHORELMU_FORM_UNKNOWN, 0, &areas, 0, wrong);
    for (unsigned entry = 1; entry <= 6; entry++) {
        areas = board_with_byte(4 + 8 * (entry - 1) + 6, 1);
        start_refused("entry", BHORELMU_ENTRY_DIFFERS, entry, &areas, 0, wrong);
    }
    areas = board_with_byte(1019, 0);
    start_refused("filler", BHORELMU_FILLER_DIFFERS, 0, &areas, 0, wrong);
    areas = board_with_byte(FIELDS_AT + BHORELMU_FIELD_RESET_MODE, BHORELMU_RESET_WITH_PASSWORD + 1);
    start_refused("reset mode", BHORELMU_VALUE_NOT_ALLOWED, 0, &areas, 0, wrong);
    areas = board_with_byte(FIELDS_AT + BHORELMU_FIELD_ZERO, 1);
    start_refused("the zero byte", BHORELMU_VALUE_NOT_ALLOWED, 0, &areas, 0, wrong);
}

static void check_named_images(void)
{
    struct sizes wrong = right_sizes;
    wrong.record = 0;
    struct areas areas = named_board_with_byte(0, 1);
    start_refused("form 1 with 7", BHORELMU_FORM_UNKNOWN, 0, &areas, 0, wrong);
    areas = named_board_with_byte(2, 6);
    start_refused("form 2 with 6", BHORELMU_FORM_UNKNOWN, 0, &areas, 0, wrong);
    for (unsigned entry = 1; entry <= 7; entry++) {
        areas = named_board_with_byte(4 + 8 * (entry - 1) + 6, 1);
        start_refused("entry of form 2", BHORELMU_ENTRY_DIFFERS, entry, &areas, 0, wrong);
    }
    areas = named_board_with_byte(198, 0);
    start_refused("first filler byte of form 2", BHORELMU_FILLER_DIFFERS, 0, &areas, 0, wrong);
    areas = named_board_with_byte(197, 0);
    start_refused("last byte of the name", BHORELMU_RECORD_NOT_VALID, 0, &areas, 0, wrong);
    areas = named_board_with_byte(FIELDS_AT_2 + BHORELMU_FIELD_ALERT, BHORELMU_ALERT_DISABLE + 1);
    start_refused("alert of form 2", BHORELMU_VALUE_NOT_ALLOWED, 0, &areas, 0, wrong);
}

static void check_call_sizes(void)
{
    struct areas areas = started_board();
    struct sizes sizes = right_sizes;
    sizes.reply--;
    sizes.window--;
    sizes.record--;
    refused("9 comes first", BHORELMU_REPLY_AREA_TOO_SMALL, &areas, sizes);
    sizes.reply++;
    refused("11 comes before 10", BHORELMU_WINDOW_SIZE_WRONG, &areas, sizes);
    sizes = right_sizes;
    sizes.window++;
    refused("a window one byte long", BHORELMU_WINDOW_SIZE_WRONG, &areas, sizes);
    areas.record[BHORELMU_RECORD_PHASE] = BHORELMU_ENDED;
    refused("after the session's end too", BHORELMU_WINDOW_SIZE_WRONG, &areas, sizes);
    areas.record[BHORELMU_RECORD_PHASE] = BHORELMU_DETECT;
    sizes = right_sizes;
    sizes.record--;
    refused("a record one byte short", BHORELMU_RECORD_NOT_VALID, &areas, sizes);
    sizes.record += 2;
    refused("a record one byte long", BHORELMU_RECORD_NOT_VALID, &areas, sizes);
    sizes = right_sizes;
    sizes.settings++;
    refused("settings one byte long", BHORELMU_RECORD_NOT_VALID, &areas, sizes);
    sizes = right_sizes;
    sizes.main_flash -= 1024;
    refused("MAIN unlike the record's", BHORELMU_RECORD_NOT_VALID, &areas, sizes);
}

/* Each byte of a record set to each value, by itself: refused with 10, or a record that an empty packet after no time leaves as it is. */
static void check_record_bytes(void)
{
    static const uint8_t nothing[1];
    struct areas started = started_board();
    unsigned taken = 0;
    started.record[BHORELMU_RECORD_TRIES] = 3; /* so that each wrong count goes with it */
    for (size_t place = 0; place < BHORELMU_RECORD_SIZE; place++) {
        for (unsigned value = 0; value < 256; value++) {
            struct areas areas = started;
            areas.record[place] = (uint8_t)value;
            struct areas before = areas;
            uint64_t answer = call(&areas, right_sizes, nothing, 0);
            check("10 or nothing", 1, answer == 0 || answer == (uint64_t)BHORELMU_RECORD_NOT_VALID << 56);
            check("the areas are the same", 0, (unsigned)memcmp(&before, &areas, sizeof before) != 0);
            taken += answer == 0;
        }
    }
    /* By the layout: phase 5 values, lock 1, wrong count 4, rate id 9, sleep's bytes 1 each, idle's 256, 40, 1 and 1, the total's
       256, 256, 1 and 1, those of the size of MAIN 1 each; in the fields any value, but reset mode 3, alert 3, settings protected 2, the zero byte 1. */
    unsigned wanted = 5 + 1 + 4 + 9 + 4 + (256 + 40 + 1 + 1) + (256 + 256 + 1 + 1) + 4 + 48 * 256 + 3 + 3 + 2 * 256 + 2 + 1 + 20 * 256;
    check("how many are taken", wanted, taken);
}

static void check_layout(void)
{
    struct areas areas = started_board();
    static const uint8_t front[20] = {0, 0, 0, 2, 0, 0, 0, 0, 0, 0, 0, 0, 0, 0, 0, 0, 0x00, 0x10, 0, 0};
    check("the record at start", 0, (unsigned)memcmp(front, areas.record, sizeof front) != 0);
    check("Connect", 1, call(&areas, right_sizes, connect_packet, sizeof connect_packet));
    check("command phase", BHORELMU_COMMAND, areas.record[BHORELMU_RECORD_PHASE]);
    check("locked", 0, areas.record[BHORELMU_RECORD_LOCK]);
    check("bytes past the reply", 0x5A, areas.reply[1]);
    struct sizes larger = right_sizes;
    larger.reply += SLACK;
    check("Info", 33, call(&areas, larger, info_packet, sizeof info_packet));
    for (size_t i = 33; i < sizeof areas.reply; i++)
        check("bytes past the reply", 0x5A, areas.reply[i]);
}

static void check_fields(void)
{
    struct areas areas = blank_board();
    struct areas before = areas;
    check("the reader's 3", 3ULL << 56, bhorelmu_settings_read(areas.settings, 1023, areas.fields, 0));
    check("fields short", 10ULL << 56, bhorelmu_settings_read(areas.settings, 1024, areas.fields, 139));
    check("fields long", 10ULL << 56, bhorelmu_settings_read(areas.settings, 1024, areas.fields, 141));
    check("the writer's 3", 3ULL << 56, bhorelmu_settings_write(areas.fields, 0, areas.settings, 1025));
    check("then 10", 10ULL << 56, bhorelmu_settings_write(areas.fields, 141, areas.settings, 1024));
    check("then 5", 5ULL << 56, bhorelmu_settings_write(areas.fields, 140, areas.settings, 1024));
    check("all is as it was", 0, (unsigned)memcmp(&before, &areas, sizeof before) != 0);
    areas.fields[BHORELMU_FIELD_FORM] = 1;
    areas.fields[BHORELMU_FIELD_FORM + 1] = 0;
    before = areas;
    check("then 8", 8ULL << 56, bhorelmu_settings_write(areas.fields, 140, areas.settings, 1024));
    check("all is as it was", 0, (unsigned)memcmp(&before, &areas, sizeof before) != 0);
    write_image(&areas);
    check("blank has form 1", 1, areas.fields[BHORELMU_FIELD_FORM] | areas.fields[BHORELMU_FIELD_FORM + 1] << 8);
    for (size_t i = 0; i < BHORELMU_NAME_SIZE; i++)
        check("blank has no name", 0xFF, areas.fields[BHORELMU_FIELD_NAME + i]);
    struct areas again = areas;
    memset(again.fields, 0, sizeof again.fields);
    check("read again", 0, bhorelmu_settings_read(again.settings, 1024, again.fields, 140));
    check("the same fields", 0, (unsigned)memcmp(areas.fields, again.fields, 140) != 0);
    check("as bytes 52 to 125", 0, (unsigned)memcmp(areas.fields, areas.settings + FIELDS_AT, KEPT_SIZE) != 0);
    areas.fields[BHORELMU_FIELD_NAME + BHORELMU_NAME_SIZE - 1] = 0;
    before = areas;
    check("a name in form 1", 41ULL << 56, bhorelmu_settings_write(areas.fields, 140, areas.settings, 1024));
    check("all is as it was", 0, (unsigned)memcmp(&before, &areas, sizeof before) != 0);
}

/* Both forms: where the fields stand in form 2, and the moves from one to the other. */
static void check_forms(void)
{
    struct areas areas = named_board();
    struct areas again = areas;
    check("form and count", 0, (unsigned)memcmp("\2\0\7", areas.settings, 4) != 0);
    check("as bytes 60 to 197", 0, (unsigned)memcmp(areas.fields, areas.settings + FIELDS_AT_2, BHORELMU_FIELD_FORM) != 0);
    memset(again.fields, 0, sizeof again.fields);
    check("read again", 0, bhorelmu_settings_read(again.settings, 1024, again.fields, 140));
    check("the same fields", 0, (unsigned)memcmp(areas.fields, again.fields, 140) != 0);
    again = areas;
    check("a name does not move back", 41ULL << 56, bhorelmu_settings_to_form_1(areas.settings, 1024));
    check("form 2 does not move forth", 5ULL << 56, bhorelmu_settings_to_form_2(areas.settings, 1024));
    check("a move's 3", 3ULL << 56, bhorelmu_settings_to_form_2(areas.settings, 1025));
    check("and the other's", 3ULL << 56, bhorelmu_settings_to_form_1(areas.settings, 1023));
    check("all is as it was", 0, (unsigned)memcmp(&again, &areas, sizeof again) != 0);
    areas = named_board_with_byte(4 + 8 * 6 + 6, 1);
    check("a move's entry", 6ULL << 56 | 7, bhorelmu_settings_to_form_1(areas.settings, 1024));
    areas = board_with_byte(FIELDS_AT + BHORELMU_FIELD_PASSWORD, 0x42);
    again = areas;
    check("form 1 does not move back", 5ULL << 56, bhorelmu_settings_to_form_1(areas.settings, 1024));
    check("forth", 0, bhorelmu_settings_to_form_2(areas.settings, 1024));
    check("the password 8 bytes on", 0x42, areas.settings[FIELDS_AT_2]);
    check("start in form 2", 0, start(&areas, 0, right_sizes));
    check("start in form 1", 0, start(&again, 0, right_sizes));
    check("the same session", 0, (unsigned)memcmp(areas.record, again.record, sizeof areas.record) != 0);
    check("back", 0, bhorelmu_settings_to_form_1(areas.settings, 1024));
    check("the first image", 0, (unsigned)memcmp(&again, &areas, sizeof again) != 0);
    areas = blank_board();
    again = areas;
    check("blank moves forth", 0, bhorelmu_settings_to_form_2(areas.settings, 1024));
    check("blank moves back", 0, bhorelmu_settings_to_form_1(areas.settings, 1024));
    check("to itself", 0, (unsigned)memcmp(&again, &areas, sizeof again) != 0);
}

/* Mends an image, and looks at the answer and at the counts. */
static void mends(const char *what, uint8_t *image, unsigned table, unsigned filler, unsigned values, unsigned checksum)
{
    uint8_t counts[BHORELMU_COUNTS_SIZE], image_again[BHORELMU_SETTINGS_SIZE];
    check(what, 0, bhorelmu_settings_mend(image, BHORELMU_SETTINGS_SIZE, counts, sizeof counts));
    check("table", table, counts[BHORELMU_COUNT_TABLE] + 256u * counts[BHORELMU_COUNT_TABLE + 1]);
    check("filler", filler, counts[BHORELMU_COUNT_FILLER] + 256u * counts[BHORELMU_COUNT_FILLER + 1]);
    check("values", values, counts[BHORELMU_COUNT_VALUES] + 256u * counts[BHORELMU_COUNT_VALUES + 1]);
    check("checksum", checksum, counts[BHORELMU_COUNT_CHECKSUM] + 256u * counts[BHORELMU_COUNT_CHECKSUM + 1]);
    memcpy(image_again, image, sizeof image_again);
    check("mended again", 0, bhorelmu_settings_mend(image, BHORELMU_SETTINGS_SIZE, counts, sizeof counts));
    check("nothing is changed", 0, (unsigned)memcmp(image_again, image, sizeof image_again) != 0);
    for (size_t i = 0; i < sizeof counts; i++)
        check("and none is counted", 0, counts[i]);
}

static void check_mending(void)
{
    struct areas whole = board_with_byte(FIELDS_AT + BHORELMU_FIELD_READOUT, 0x42), areas = whole;
    areas.settings[6] ^= 0xFF;
    mends("a bad byte of the table", areas.settings, 1, 0, 0, 0);
    check("is put right", 0, (unsigned)memcmp(&whole, &areas, sizeof whole) != 0);
    areas.settings[126] = areas.settings[1019] = 0;
    mends("two of the filler", areas.settings, 0, 2, 0, 0);
    check("are put right", 0, (unsigned)memcmp(&whole, &areas, sizeof whole) != 0);
    areas.settings[1020] ^= 0xFF;
    mends("one of the checksum", areas.settings, 0, 0, 0, 1);
    check("is put right", 0, (unsigned)memcmp(&whole, &areas, sizeof whole) != 0);
    areas.settings[100] = areas.settings[101] = 3;
    areas.settings[104] = 2;
    areas.settings[105] = 1;
    mends("four values", areas.settings, 0, 0, 4, 0);
    check("are those of a blank board", 0, (unsigned)memcmp(&whole, &areas, sizeof whole) != 0);
    areas.settings[FIELDS_AT] ^= 0xFF;
    mends("a byte of the password", areas.settings, 0, 0, 0, 4);
    check("is kept", whole.settings[FIELDS_AT] ^ 0xFFu, areas.settings[FIELDS_AT]);
    areas = blank_board();
    mends("blank", areas.settings, 0, 0, 0, 0);
    areas.settings[500] = 0;
    mends("blank but for a byte", areas.settings, 52, 1, 4, 4);
    check("every sector is protected", 0xFF, areas.settings[118] & areas.settings[125]);
}

static void check_mending_refused(void)
{
    uint8_t counts[BHORELMU_COUNTS_SIZE + 1];
    struct areas areas = named_board(), named;
    mends("form 2", areas.settings, 0, 0, 0, 0);
    areas.settings[200] = 0;
    named = areas;
    memset(counts, 0x5A, sizeof counts);
    check("damaged form 2", 5ULL << 56, bhorelmu_settings_mend(areas.settings, 1024, counts, sizeof counts));
    check("one byte more", 3ULL << 56, bhorelmu_settings_mend(areas.settings, 1025, counts, sizeof counts));
    check("all is as it was", 0, (unsigned)memcmp(&named, &areas, sizeof named) != 0);
    areas.settings[0] = 7;
    named = areas;
    check("no room for the counts", 10ULL << 56, bhorelmu_settings_mend(areas.settings, 1024, counts, sizeof counts));
    check("too little", 10ULL << 56, bhorelmu_settings_mend(areas.settings, 1024, counts, 7));
    check("nothing is mended", 0, (unsigned)memcmp(&named, &areas, sizeof named) != 0);
    for (size_t i = 0; i < sizeof counts; i++)
        check("nothing is counted", 0x5A, counts[i]);
    mends("form 2 taken for form 1", areas.settings, 8, 73, 4, 4);
}

/* The names of the fields and of their values, by what a board with such fields does. */
static void check_field_names(void)
{
    static const uint8_t blank[26] = {1, 0, 0xFF, 0xFF, 0, 0, 1, 0, 0, 0, 1, 0, 0, 0, 0xFF, 0xFF, 0xFF, 0xFF, 0, 0, 0, 0, 0, 0, 0, 0};
    struct areas areas = blank_board();
    write_image(&areas);
    const uint8_t *fields = areas.fields;
    check("blank passwords", 0xFF, fields[BHORELMU_FIELD_PASSWORD] & fields[BHORELMU_FIELD_RESET_PASSWORD]);
    check("blank fields", 0, (unsigned)memcmp(fields + BHORELMU_FIELD_RESET_MODE, blank, sizeof blank) != 0);
    check("blank reset mode", BHORELMU_RESET_ON, fields[BHORELMU_FIELD_RESET_MODE]);
    check("blank alert", BHORELMU_ALERT_NOTHING, fields[BHORELMU_FIELD_ALERT]);
    areas.fields[BHORELMU_FIELD_RESET_MODE] = BHORELMU_RESET_WITH_PASSWORD;
    areas.fields[BHORELMU_FIELD_ALERT] = BHORELMU_ALERT_DISABLE;
    areas.fields[BHORELMU_FIELD_READOUT] = BHORELMU_READOUT_ON & 0xFF;
    areas.fields[BHORELMU_FIELD_READOUT + 1] = BHORELMU_READOUT_ON >> 8;
    areas.fields[BHORELMU_FIELD_SETTINGS_PROTECTED] = 1;
    areas.fields[BHORELMU_FIELD_BSL_ID] = 7;
    check("settings by name", 0, bhorelmu_settings_write(areas.fields, 140, areas.settings, 1024));
    check("start with them", 0, start(&areas, 0, right_sizes));
    check("in the record", 0, (unsigned)memcmp(areas.record + BHORELMU_RECORD_FIELDS, areas.fields, KEPT_SIZE) != 0);
    call(&areas, right_sizes, connect_packet, sizeof connect_packet);
    check("Info", 33, call(&areas, right_sizes, info_packet, sizeof info_packet));
    check("Info's last number is the BSL id", 7, areas.reply[25]);
    areas.fields[BHORELMU_FIELD_ZERO] = 1;
    check("the zero byte", 8ULL << 56, bhorelmu_settings_write(areas.fields, 140, areas.settings, 1024));
}

enum { CORE_MOST = 33, NO_MESSAGE = 0x100 };

/* Sends a core in its frame. */
static uint64_t send_core(struct areas *areas, const uint8_t *core, size_t length)
{
    uint8_t packet[CORE_MOST + 7] = {0x80, (uint8_t)length, 0x00};
    uint32_t sum = checksum(core, length);
    memcpy(packet + 3, core, length);
    for (unsigned i = 0; i < 4; i++)
        packet[3 + length + i] = (uint8_t)(sum >> 8 * i);
    return call(areas, right_sizes, packet, length + 7);
}

/* What is told of a core: the number of the message, or NO_MESSAGE where 00 is all that is sent. */
static unsigned told(struct areas *areas, const uint8_t *core, size_t length)
{
    uint64_t answer = send_core(areas, core, length);
    check("acknowledged", 0x00, areas->reply[0]);
    if (answer == 1)
        return NO_MESSAGE;
    check("a message's size", 10, answer);
    check("a message's code", 0x3B, areas->reply[4]);
    return areas->reply[5];
}

/* Connect, and an Unlock with the password of a blank board. */
static void unlock(struct areas *areas)
{
    uint8_t core[33] = {0x21};
    memset(core + 1, 0xFF, 32);
    call(areas, right_sizes, connect_packet, sizeof connect_packet);
    check("Unlock", 0x00, told(areas, core, sizeof core));
}

/* An unlocked board whose sector 1 and settings are protected. MAIN holds 0x5A, so that both an erase and a Program show. */
static struct areas protected_board(void)
{
    struct areas areas = blank_board();
    write_image(&areas);
    areas.fields[BHORELMU_FIELD_SETTINGS_PROTECTED] = 1;
    areas.fields[BHORELMU_FIELD_PROTECTION] = 1 << 1;
    check("protected settings", 0, bhorelmu_settings_write(areas.fields, 140, areas.settings, 1024));
    memset(areas.main_flash, 0x5A, sizeof areas.main_flash);
    check("start with them", 0, start(&areas, 0, right_sizes));
    unlock(&areas);
    return areas;
}

/* What would touch a protected place is refused whole; the data are zeros. */
static void check_refused_places(void)
{
    static const struct {
        const char *what;
        unsigned message;
        size_t length;
        uint8_t core[CORE_MOST];
    } tries[] = {
        {"Program in sector 1", 0x05, 13, {0x20, 0x00, 0x04}},
        {"Program up to it and into it", 0x05, 21, {0x20, 0xF8, 0x03}},
        {"Program from it and out of it", 0x05, 21, {0x20, 0xF8, 0x07}},
        {"Program of the settings", 0x05, 13, {0x20, 0x00, 0x02, 0xC0, 0x41}},
        {"not aligned is told first", 0x0A, 13, {0x20, 0x04, 0x04}},
        {"0x24 into it", NO_MESSAGE, 21, {0x24, 0xF8, 0x03}},
        {"0x24 of the settings", NO_MESSAGE, 13, {0x24, 0x00, 0x02, 0xC0, 0x41}},
        {"Range erase into it", 0x05, 9, {0x23, 0xFF, 0x03, 0x00, 0x00, 0x00, 0x04}},
        {"Range erase out of it", 0x05, 9, {0x23, 0xFF, 0x07, 0x00, 0x00, 0x00, 0x08}},
        {"Range erase over it", 0x05, 9, {0x23, 0x00, 0x00, 0x00, 0x00, 0xFF, 0x0F}},
    };
    struct areas areas = protected_board();
    struct areas before = areas;
    for (size_t i = 0; i < sizeof tries / sizeof *tries; i++) {
        check(tries[i].what, tries[i].message, told(&areas, tries[i].core, tries[i].length));
        check("MAIN is as it was", 0, (unsigned)memcmp(before.main_flash, areas.main_flash, MAIN_SIZE) != 0);
        check("so are the settings", 0, (unsigned)memcmp(before.settings, areas.settings, sizeof areas.settings) != 0);
    }
}

/* What lies beside them is served, and an erase of all passes over them. */
static void check_skipped_places(void)
{
    static const uint8_t before[13] = {0x20, 0xF8, 0x03}, after[13] = {0x20, 0x00, 0x08};
    static const uint8_t sector[9] = {0x23, 0x00, 0x0C, 0x00, 0x00, 0xFF, 0x0F};
    static const uint8_t mass_erase[] = {0x15}, factory_reset[] = {0x30};
    struct areas areas = protected_board();
    memset(areas.main_flash + 1016, 0xFF, 8);
    memset(areas.main_flash + 2048, 0xFF, 8);
    struct areas started = areas;
    check("Program up to sector 1", 0x00, told(&areas, before, sizeof before));
    check("Program from sector 2 on", 0x00, told(&areas, after, sizeof after));
    check("both are done", 0, areas.main_flash[1023] | areas.main_flash[2048]);
    check("Range erase of sector 3", 0x00, told(&areas, sector, sizeof sector));
    check("it is done", 0xFF, areas.main_flash[3072] & areas.main_flash[4095]);
    check("Mass erase", 0x00, told(&areas, mass_erase, sizeof mass_erase));
    for (size_t place = 0; place < MAIN_SIZE; place++)
        check("all but sector 1 are erased", place / 1024 == 1 ? 0x5A : 0xFF, areas.main_flash[place]);
    check("Factory reset", 0x00, told(&areas, factory_reset, sizeof factory_reset));
    check("the settings stay", 0, (unsigned)memcmp(started.settings, areas.settings, sizeof areas.settings) != 0);
    check("so does sector 1", 0, (unsigned)memcmp(started.main_flash + 1024, areas.main_flash + 1024, 1024) != 0);
}

/* A Program of some words over what stands there: 16 bytes from 0 on, and what the board answers. */
static void check_second_write(struct areas *areas, const char *what, uint8_t code, uint8_t data)
{
    static const uint8_t detailed_error[12] = {0x00, 0x08, 0x04, 0x00, 0x3A, 0xF0, 0x00, 0x00, 0xF6, 0x4B, 0xE9, 0xF4};
    struct areas before = *areas;
    uint8_t core[21] = {code};
    size_t sent = code == 0x20 ? sizeof detailed_error : 1;
    memset(core + 5, data, 16);
    check(what, sent, send_core(areas, core, sizeof core));
    check("its bytes", 0, (unsigned)memcmp(detailed_error, areas->reply, sent) != 0);
    check("MAIN is as it was", 0, (unsigned)memcmp(before.main_flash, areas->main_flash, MAIN_SIZE) != 0);
}

/* A word that holds something cannot be written again, whatever is to be written. */
static void check_written_words(void)
{
    static const uint8_t first_word[13] = {0x20}, second_word[13] = {0x20, 0x08}, mass_erase[] = {0x15};
    struct areas areas = blank_board();
    check("start of a blank board", 0, start(&areas, 0, right_sizes));
    unlock(&areas);
    check("Program of a blank word", 0x00, told(&areas, first_word, sizeof first_word));
    check("it is done", 0, areas.main_flash[0] | areas.main_flash[7]);
    check_second_write(&areas, "the first word is written", 0x20, 0x00);
    check_second_write(&areas, "data of 0xFF", 0x20, 0xFF);
    check_second_write(&areas, "0x24 is silent", 0x24, 0x00);
    check("Mass erase", 0x00, told(&areas, mass_erase, sizeof mass_erase));
    check("Program of the second word", 0x00, told(&areas, second_word, sizeof second_word));
    check_second_write(&areas, "the last word is written", 0x20, 0x00);
}

static uint32_t total_of(const struct areas *areas)
{
    const uint8_t *at = areas->record + BHORELMU_RECORD_TRIES;
    return at[0] | (uint32_t)at[1] << 8 | (uint32_t)at[2] << 16 | (uint32_t)at[3] << 24;
}

static void set_total(struct areas *areas, uint32_t total)
{
    for (unsigned i = 0; i < 4; i++)
        areas->record[BHORELMU_RECORD_TRIES + i] = (uint8_t)(total >> 8 * i);
}

/* A record with such a wrong count and such a total: taken, or refused with 10. */
static void check_total(uint8_t wrong_count, uint32_t total, bool is_taken)
{
    struct areas areas = started_board();
    areas.record[BHORELMU_RECORD_WRONG_COUNT] = wrong_count;
    set_total(&areas, total);
    if (!is_taken) {
        refused("a total that does not go with the count", BHORELMU_RECORD_NOT_VALID, &areas, right_sizes);
        return;
    }
    check("a total that goes with the count", 1, call(&areas, right_sizes, connect_packet, sizeof connect_packet));
    check("Connect keeps it", total, total_of(&areas));
}

/* Each side of both clauses. */
static void check_totals(void)
{
    for (uint8_t wrong_count = 0; wrong_count <= 3; wrong_count++) {
        check_total(wrong_count, wrong_count, true);
        check_total(wrong_count, 65535, true);
        check_total(wrong_count, 65536, false);
        check_total(wrong_count, 0xFFFFFFFFu, false);
        if (wrong_count > 0)
            check_total(wrong_count, wrong_count - 1u, false);
    }
}

/* Sends an Unlock with 32 times this byte, once the session is awake. What is told, as above. */
static unsigned tried(struct areas *areas, uint8_t byte)
{
    uint8_t core[33] = {0x21};
    memset(core + 1, byte, 32);
    memset(areas->record + BHORELMU_RECORD_SLEEP, 0, 4);
    return told(areas, core, sizeof core);
}

/* Wrong passwords add one each, up to 65,535; a right one leaves the total. */
static void check_tries(void)
{
    static const unsigned messages[] = {0x02, 0x02, 0x03, 0x03, 0x03};
    struct areas areas = started_board();
    call(&areas, right_sizes, connect_packet, sizeof connect_packet);
    for (unsigned i = 0; i < sizeof messages / sizeof *messages; i++) {
        check("a wrong password", messages[i], tried(&areas, 0x00));
        check("one more", i + 1, total_of(&areas));
    }
    check("a right password", 0x00, tried(&areas, 0xFF));
    check("the count is cleared", 0, areas.record[BHORELMU_RECORD_WRONG_COUNT]);
    check("the total is not", 5, total_of(&areas));
    check("a wrong one while unlocked", 0x02, tried(&areas, 0x00));
    check("counts too", 6, total_of(&areas));
    set_total(&areas, 65534);
    for (unsigned i = 0; i < 3; i++) {
        tried(&areas, 0x00);
        check("the total stops", 65535, total_of(&areas));
    }
    check("start gives", 0, start(&areas, 0, right_sizes));
    check("a total of 0", 0, total_of(&areas));
}

/* The window takes any bytes at any address, though the settings are protected; what crosses its edges, a Verify and every erase
   leave it. It holds 0x5A, so that a store shows that is done by AND. */
static void check_window(void)
{
    static const struct {
        const char *what;
        unsigned message;
        size_t length;
        uint8_t core[9];
    } tries[] = {
        {"Program of three bytes at 0x20000161", 0x00, 8, {0x20, 0x61, 0x01, 0x00, 0x20, 0xA5, 0xFF, 0x0F}},
        {"0x24 of its last byte", NO_MESSAGE, 6, {0x24, 0xDF, 0x0E, 0x00, 0x20, 0xA7}},
        {"Program from before it", 0x05, 7, {0x20, 0x5F, 0x01, 0x00, 0x20}},
        {"Program past its end", 0x05, 7, {0x20, 0xDF, 0x0E, 0x00, 0x20}},
        {"0x24 past its end", NO_MESSAGE, 7, {0x24, 0xDF, 0x0E, 0x00, 0x20}},
        {"Verify of 1,023 bytes", 0x0B, 9, {0x26, 0x60, 0x01, 0x00, 0x20, 0xFF, 0x03}},
        {"Verify of 1,024 bytes", 0x05, 9, {0x26, 0x60, 0x01, 0x00, 0x20, 0x00, 0x04}},
        {"Verify of all of it", 0x05, 9, {0x26, 0x60, 0x01, 0x00, 0x20, 0x80, 0x0D}},
        {"Read back, readout off", 0x09, 9, {0x29, 0x60, 0x01, 0x00, 0x20, 0x04}},
        {"Range erase of it", 0x05, 9, {0x23, 0x60, 0x01, 0x00, 0x20, 0xDF, 0x0E, 0x00, 0x20}},
        {"Mass erase", 0x00, 1, {0x15}},
        {"Factory reset", 0x00, 1, {0x30}},
    };
    struct areas areas = protected_board();
    uint8_t wanted[sizeof areas.window];
    memset(wanted, 0x5A, sizeof wanted);
    memcpy(wanted + 1, "\xA5\xFF\x0F", 3);
    wanted[BHORELMU_WINDOW_SIZE - 1] = 0xA7;
    for (size_t i = 0; i < sizeof tries / sizeof *tries; i++)
        check(tries[i].what, tries[i].message, told(&areas, tries[i].core, tries[i].length));
    check("the window holds what was stored, and else what it held", 0, (unsigned)memcmp(wanted, areas.window, sizeof wanted) != 0);
}

static void check_rates(void)
{
    static const uint32_t rates[] = {0, 4800, 9600, 19200, 38400, 57600, 115200, 1000000, 2000000, 3000000, 0};
    for (uint32_t id = 0; id < sizeof rates / sizeof *rates; id++)
        check("rate", rates[id], bhorelmu_rate(id));
    check("rate of the other part's 0x10", 0, bhorelmu_rate(0x10));
    check("rate of 257", 0, bhorelmu_rate(257));
    check("rate of 2^32 - 1", 0, bhorelmu_rate(0xFFFFFFFFu));
}

int main(void)
{
    check_start();
    check_images();
    check_named_images();
    check_call_sizes();
    check_record_bytes();
    check_layout();
    check_fields();
    check_forms();
    check_mending();
    check_mending_refused();
    check_field_names();
    check_refused_places();
    check_skipped_places();
    check_written_words();
    check_totals();
    check_tries();
    check_window();
    check_rates();
    printf("%u checks, %u failed\n", checks, failures);
    return failures != 0;
}
