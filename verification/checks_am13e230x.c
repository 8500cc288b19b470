/* Checks of the C boundary of the AM13E230x: each refusal and their order, each byte of a record, sizes one off and sizes of the
   other part, Info, the second half of the settings, sectors from the 65th on, alignment, Verify's least, the rates. */

#include "bhorelmu.h"

#include <stdbool.h>
#include <stdio.h>
#include <string.h>

#define SETTINGS_AT 0x60100800u
#define WINDOW_AT 0x20000160u

enum { SECTOR = 2048, SECTORS = 66, MAIN_SIZE = SECTORS * SECTOR, SLACK = 16, FIELDS_AT = 60, KEPT_SIZE = 98 };
enum { SETTINGS_SIZE = BHORELMU_AM13E230X_SETTINGS_SIZE, RECORD_SIZE = BHORELMU_AM13E230X_RECORD_SIZE };
enum { FIELDS_SIZE = BHORELMU_AM13E230X_FIELDS_SIZE, CORE_MOST = 64, NO_MESSAGE = 0x100 };

struct areas {
    uint8_t main_flash[MAIN_SIZE + SECTOR];
    uint8_t settings[SETTINGS_SIZE + 1];
    uint8_t record[RECORD_SIZE + 1];
    uint8_t reply[BHORELMU_REPLY_SIZE + SLACK];
    uint8_t fields[FIELDS_SIZE + 1];
};

struct sizes {
    size_t record, main_flash, settings, reply;
};

static const struct sizes right_sizes = {RECORD_SIZE, MAIN_SIZE, SETTINGS_SIZE, BHORELMU_REPLY_SIZE};
static const uint8_t connect_packet[] = {0x80, 0x01, 0x00, 0x12, 0x3A, 0x61, 0x44, 0xDE};
static const uint8_t info_packet[] = {0x80, 0x01, 0x00, 0x19, 0xB2, 0xB8, 0x96, 0x49};
static struct areas before; /* what a call that changes nothing is compared with */
static unsigned failures, checks;

static void check(const char *what, unsigned long long wanted, unsigned long long got)
{
    checks++;
    if (wanted == got)
        return;
    failures++;
    printf("AM13E230x: %s: wanted %llu, got %llu\n", what, wanted, got);
}

static void same(const char *what, const void *one, const void *other, size_t size)
{
    check(what, 0, (unsigned)memcmp(one, other, size) != 0);
}

static void blank_board(struct areas *areas)
{
    memset(areas, 0x5A, sizeof *areas);
    memset(areas->main_flash, 0xFF, sizeof areas->main_flash);
    memset(areas->settings, 0xFF, sizeof areas->settings);
}

static uint64_t start(struct areas *areas, uint32_t fuse, struct sizes sizes)
{
    return bhorelmu_am13e230x_start(fuse, areas->main_flash, sizes.main_flash, areas->settings, sizes.settings,
                                    areas->record, sizes.record);
}

static uint64_t call(struct areas *areas, struct sizes sizes, const uint8_t *packet, size_t packet_size)
{
    return bhorelmu_am13e230x_call(areas->record, sizes.record, areas->main_flash, sizes.main_flash, areas->settings,
                                   sizes.settings, 0, packet, packet_size, areas->reply, sizes.reply);
}

static uint64_t read_fields(struct areas *areas, size_t image_size, size_t fields_size)
{
    return bhorelmu_am13e230x_settings_read(areas->settings, image_size, areas->fields, fields_size);
}

static uint64_t write_fields(struct areas *areas, size_t image_size, size_t fields_size)
{
    return bhorelmu_am13e230x_settings_write(areas->fields, fields_size, areas->settings, image_size);
}

/* ---- Images ---- */

static uint32_t checksum(const uint8_t *bytes, size_t count)
{
    uint32_t sum = 0xFFFFFFFFu;
    for (size_t i = 0; i < count; i++) {
        sum ^= bytes[i];
        for (int bit = 0; bit < 8; bit++)
            sum = sum >> 1 ^ (sum & 1u ? 0xEDB88320u : 0u);
    }
    return sum;
}

/* The blank settings, written, with a name; then with one byte changed, and the checksum put right. */
static void named_board(struct areas *areas)
{
    blank_board(areas);
    check("blank fields are read", 0, read_fields(areas, SETTINGS_SIZE, FIELDS_SIZE));
    memset(areas->fields + BHORELMU_AM13E230X_FIELD_NAME, 'A', BHORELMU_NAME_SIZE);
    check("a name is written", 0, write_fields(areas, SETTINGS_SIZE, FIELDS_SIZE));
}

static void board_with_byte(struct areas *areas, size_t place, uint8_t value)
{
    named_board(areas);
    areas->settings[place] = value;
    uint32_t sum = checksum(areas->settings, 1020);
    for (int i = 0; i < 4; i++)
        areas->settings[1020 + i] = (uint8_t)(sum >> 8 * i);
}

/* Start and the reader must refuse an image with the same number. */
static void image_refused(const char *what, unsigned number, unsigned entry, struct areas *areas)
{
    struct sizes wrong = right_sizes;
    wrong.record = 0;
    before = *areas;
    check(what, (unsigned long long)number << 56 | entry, start(areas, 0, wrong));
    check(what, (unsigned long long)number << 56 | entry, read_fields(areas, SETTINGS_SIZE, 0));
    same("a refused image is left", &before, areas, sizeof before);
}

static void check_images(struct areas *areas)
{
    named_board(areas);
    areas->settings[1020] ^= 1;
    image_refused("checksum", BHORELMU_CHECKSUM_DIFFERS, 0, areas);
    blank_board(areas);
    areas->settings[2047] = 0;
    image_refused("blank by the first half alone", BHORELMU_CHECKSUM_DIFFERS, 0, areas);
    board_with_byte(areas, 0, 1);
    image_refused("form 1 with 7", BHORELMU_FORM_UNKNOWN, 0, areas);
    board_with_byte(areas, 2, 6);
    image_refused("form 2 with 6", BHORELMU_FORM_UNKNOWN, 0, areas);
    blank_board(areas);
    check("an MSPM0's fields", 0, bhorelmu_settings_read(areas->settings, 1024, areas->fields, BHORELMU_FIELDS_SIZE));
    check("as its image of form 1", 0, bhorelmu_settings_write(areas->fields, BHORELMU_FIELDS_SIZE, areas->settings, 1024));
    image_refused("form 1 with 6", BHORELMU_FORM_UNKNOWN, 0, areas);
    for (unsigned entry = 1; entry <= 7; entry++) {
        board_with_byte(areas, 4 + 8 * (entry - 1) + 6, 1);
        image_refused("entry", BHORELMU_ENTRY_DIFFERS, entry, areas);
    }
    board_with_byte(areas, 4 + 8 * 5 + 4, 8);
    image_refused("the other part's protection", BHORELMU_ENTRY_DIFFERS, 6, areas);
    static const size_t places[] = {222, 1019, 1024, 2047};
    for (size_t i = 0; i < 4; i++) {
        board_with_byte(areas, places[i], 0);
        image_refused("filler", BHORELMU_FILLER_DIFFERS, 0, areas);
    }
    board_with_byte(areas, 221, 0);
    image_refused("last byte of the name", BHORELMU_RECORD_NOT_VALID, 0, areas);
    board_with_byte(areas, FIELDS_AT + BHORELMU_FIELD_ALERT, BHORELMU_ALERT_DISABLE + 1);
    image_refused("alert", BHORELMU_VALUE_NOT_ALLOWED, 0, areas);
    areas->settings[2047] = 0;
    image_refused("7 of the second half before 8", BHORELMU_FILLER_DIFFERS, 0, areas);
}

/* ---- Sizes ---- */

static void start_refused(const char *what, unsigned number, struct areas *areas, uint32_t fuse, struct sizes sizes)
{
    before = *areas;
    check(what, (unsigned long long)number << 56, start(areas, fuse, sizes));
    same("a refused start leaves every byte", &before, areas, sizeof before);
}

static void check_start(struct areas *areas)
{
    static const size_t wrong_mains[] = {0, 1024, 2047, 3072, MAIN_SIZE - 1};
    struct sizes wrong = {BHORELMU_RECORD_SIZE, MAIN_SIZE, BHORELMU_SETTINGS_SIZE, 0};
    blank_board(areas);
    start_refused("the fuse comes first", BHORELMU_FUSE_SET, areas, 256, wrong);
    for (size_t i = 0; i < 5; i++) {
        wrong.main_flash = wrong_mains[i];
        start_refused("then the size of MAIN", BHORELMU_MAIN_SIZE_WRONG, areas, 0, wrong);
    }
    wrong.main_flash = MAIN_SIZE;
    start_refused("then settings of the other part", BHORELMU_SETTINGS_SIZE_WRONG, areas, 0, wrong);
    wrong.settings = SETTINGS_SIZE + 1;
    start_refused("or one byte long", BHORELMU_SETTINGS_SIZE_WRONG, areas, 0, wrong);
    wrong.settings = SETTINGS_SIZE;
    start_refused("then a record of the other part", BHORELMU_RECORD_NOT_VALID, areas, 0, wrong);
    wrong.record = RECORD_SIZE + 1;
    start_refused("or one byte long", BHORELMU_RECORD_NOT_VALID, areas, 0, wrong);
    wrong = right_sizes;
    wrong.main_flash = SECTOR;
    check("the least MAIN", 0, start(areas, 0, wrong));
}

static void call_refused(const char *what, unsigned number, struct areas *areas, struct sizes sizes)
{
    before = *areas;
    check(what, (unsigned long long)number << 56, call(areas, sizes, info_packet, sizeof info_packet));
    same("a refused call leaves every byte", &before, areas, sizeof before);
}

static void check_call_sizes(struct areas *areas)
{
    struct sizes sizes = right_sizes;
    blank_board(areas);
    check("a blank board starts", 0, start(areas, 0, sizes));
    sizes.reply--;
    sizes.record--;
    call_refused("9 comes first", BHORELMU_REPLY_AREA_TOO_SMALL, areas, sizes);
    sizes.reply++;
    call_refused("a record one byte short", BHORELMU_RECORD_NOT_VALID, areas, sizes);
    sizes.record = BHORELMU_RECORD_SIZE;
    call_refused("a record of the other part", BHORELMU_RECORD_NOT_VALID, areas, sizes);
    sizes = right_sizes;
    sizes.settings = BHORELMU_SETTINGS_SIZE;
    call_refused("settings of the other part", BHORELMU_RECORD_NOT_VALID, areas, sizes);
    sizes = right_sizes;
    sizes.main_flash -= SECTOR;
    call_refused("MAIN unlike the record's", BHORELMU_RECORD_NOT_VALID, areas, sizes);
}

/* The other part takes no record of this one either. */
static void check_other_part(struct areas *areas)
{
    uint8_t window[BHORELMU_WINDOW_SIZE] = {0};
    blank_board(areas);
    check("a blank board starts", 0, start(areas, 0, right_sizes));
    before = *areas;
    check("an MSPM0 takes no such record", 10ULL << 56,
          bhorelmu_call(areas->record, RECORD_SIZE, areas->main_flash, 4096, areas->settings, BHORELMU_SETTINGS_SIZE, window,
                        sizeof window, 0, info_packet, sizeof info_packet, areas->reply, BHORELMU_REPLY_SIZE));
    check("and makes none there", 10ULL << 56,
          bhorelmu_start(0, areas->main_flash, 4096, areas->settings, BHORELMU_SETTINGS_SIZE, window, sizeof window,
                         areas->record, RECORD_SIZE));
    same("every byte is left", &before, areas, sizeof before);
}

/* Each byte of a record set to each value, by itself: refused with 10, or a record that an empty packet leaves as it is. */
static void check_record_bytes(struct areas *areas)
{
    static const uint8_t nothing[1];
    unsigned taken = 0;
    blank_board(areas);
    check("a blank board starts", 0, start(areas, 0, right_sizes));
    areas->record[BHORELMU_RECORD_TRIES] = 3; /* so that each wrong count goes with it */
    for (size_t place = 0; place < RECORD_SIZE; place++)
        for (unsigned value = 0; value < 256; value++) {
            uint8_t kept = areas->record[place], record[RECORD_SIZE];
            areas->record[place] = (uint8_t)value;
            memcpy(record, areas->record, RECORD_SIZE);
            uint64_t answer = call(areas, right_sizes, nothing, 0);
            check("10 or nothing", 1, answer == 0 || answer == (uint64_t)BHORELMU_RECORD_NOT_VALID << 56);
            same("the record is the same", record, areas->record, RECORD_SIZE);
            taken += answer == 0;
            areas->record[place] = kept;
        }
    /* By the layout: phase 5 values, lock 1, wrong count 4, rate id 10, sleep's bytes 1 each, idle's 256, 40, 1 and 1, the total's
       256, 256, 1 and 1, those of the size of MAIN 1 each; in the fields any value, but reset mode 3, alert 3, settings protected 2,
       the zero byte 1. */
    unsigned wanted = 5 + 1 + 4 + 10 + 4 + (256 + 40 + 1 + 1) + (256 + 256 + 1 + 1) + 4 + 48 * 256 + 3 + 3 + 2 * 256 + 2 + 1 +
                      44 * 256;
    check("how many are taken", wanted, taken);
}

/* ---- Fields ---- */

static void check_fields(struct areas *areas)
{
    static const uint8_t blank_sum[4] = {0x37, 0x4B, 0x14, 0xD8};
    uint8_t fields[FIELDS_SIZE];
    blank_board(areas);
    before = *areas;
    check("the reader's 3", 3ULL << 56, read_fields(areas, BHORELMU_SETTINGS_SIZE, 0));
    check("fields of the other part", 10ULL << 56, read_fields(areas, SETTINGS_SIZE, BHORELMU_FIELDS_SIZE));
    check("fields long", 10ULL << 56, read_fields(areas, SETTINGS_SIZE, FIELDS_SIZE + 1));
    check("the writer's 3", 3ULL << 56, write_fields(areas, BHORELMU_SETTINGS_SIZE, 0));
    check("then 10", 10ULL << 56, write_fields(areas, SETTINGS_SIZE, BHORELMU_FIELDS_SIZE));
    check("then 5", 5ULL << 56, write_fields(areas, SETTINGS_SIZE, FIELDS_SIZE));
    same("all is as it was", &before, areas, sizeof before);
    check("blank is read", 0, read_fields(areas, SETTINGS_SIZE, FIELDS_SIZE));
    check("blank has form 2", 2, areas->fields[BHORELMU_AM13E230X_FIELD_FORM]);
    for (size_t i = 0; i < 32; i++)
        check("no sector is protected", 0, areas->fields[BHORELMU_AM13E230X_FIELD_PROTECTION + i]);
    for (size_t i = 0; i < BHORELMU_NAME_SIZE; i++)
        check("blank has no name", 0xFF, areas->fields[BHORELMU_AM13E230X_FIELD_NAME + i]);
    areas->fields[BHORELMU_AM13E230X_FIELD_FORM] = 1;
    areas->fields[BHORELMU_FIELD_ALERT] = 3;
    check("5 for form 1, before 8", 5ULL << 56, write_fields(areas, SETTINGS_SIZE, FIELDS_SIZE));
    areas->fields[BHORELMU_AM13E230X_FIELD_FORM] = 2;
    check("then 8", 8ULL << 56, write_fields(areas, SETTINGS_SIZE, FIELDS_SIZE));
    areas->fields[BHORELMU_FIELD_ALERT] = 0;
    areas->settings[1024] = 0;
    check("blank values are written", 0, write_fields(areas, SETTINGS_SIZE, FIELDS_SIZE));
    same("with this checksum", blank_sum, areas->settings + 1020, 4);
    for (size_t i = 1024; i < SETTINGS_SIZE; i++)
        check("0xFF after the image", 0xFF, areas->settings[i]);
    same("as bytes 60 to 221", areas->fields, areas->settings + FIELDS_AT, BHORELMU_AM13E230X_FIELD_FORM);
    memcpy(fields, areas->fields, FIELDS_SIZE);
    check("read again", 0, read_fields(areas, SETTINGS_SIZE, FIELDS_SIZE));
    same("the same fields", fields, areas->fields, FIELDS_SIZE);
}

/* ---- Sessions ---- */

static uint64_t send_core(struct areas *areas, const uint8_t *core, size_t length)
{
    uint8_t packet[CORE_MOST + 7] = {0x80, (uint8_t)length, 0x00};
    uint32_t sum = checksum(core, length);
    memcpy(packet + 3, core, length);
    for (unsigned i = 0; i < 4; i++)
        packet[3 + length + i] = (uint8_t)(sum >> 8 * i);
    return call(areas, right_sizes, packet, length + 7);
}

/* The number of the message, or NO_MESSAGE where something else is sent. */
static unsigned told(struct areas *areas, const uint8_t *core, size_t length)
{
    uint64_t answer = send_core(areas, core, length);
    return answer == 10 && areas->reply[0] == 0 && areas->reply[4] == 0x3B ? areas->reply[5] : NO_MESSAGE;
}

static unsigned ask_range(struct areas *areas, uint8_t command, uint32_t first, uint32_t second)
{
    uint8_t core[9] = {command};
    for (int i = 0; i < 4; i++) {
        core[1 + i] = (uint8_t)(first >> 8 * i);
        core[5 + i] = (uint8_t)(second >> 8 * i);
    }
    return told(areas, core, 9);
}

static unsigned program(struct areas *areas, uint32_t first, size_t count)
{
    uint8_t core[5 + 32] = {0x20};
    for (int i = 0; i < 4; i++)
        core[1 + i] = (uint8_t)(first >> 8 * i);
    return told(areas, core, 5 + count);
}

static unsigned try_password(struct areas *areas, uint8_t byte)
{
    uint8_t core[33] = {0x21};
    memset(core + 1, byte, 32);
    memset(areas->record + BHORELMU_RECORD_SLEEP, 0, 4); /* as if it had slept */
    return told(areas, core, 33);
}

/* An unlocked board with these fields. */
static void unlock(struct areas *areas)
{
    check("written", 0, write_fields(areas, SETTINGS_SIZE, FIELDS_SIZE));
    check("started", 0, start(areas, 0, right_sizes));
    same("in the record", areas->record + BHORELMU_RECORD_FIELDS, areas->fields, KEPT_SIZE);
    check("Connect", 1, call(areas, right_sizes, connect_packet, sizeof connect_packet));
    check("Unlock", 0x00, try_password(areas, 0xFF));
}

static void check_info(struct areas *areas)
{
    static const uint8_t blank[37] = {0x00, 0x08, 0x1D, 0x00, 0x31, 0x00, 0x01, 0x00, 0x01, 0x00, 0x00, 0x00, 0x00,
                                      0x00, 0x00, 0x00, 0x00, 0x01, 0x00, 0xC0, 0x06, 0x60, 0x01, 0x00, 0x20, 0x01,
                                      0x00, 0x00, 0x00, 0x01, 0x00, 0x00, 0x00, 0x33, 0xF9, 0xFF, 0xDF};
    named_board(areas);
    unlock(areas);
    check("Info", 37, call(areas, right_sizes, info_packet, sizeof info_packet));
    same("of a blank board", blank, areas->reply, sizeof blank);
    check("bytes past the reply", 0x5A, areas->reply[sizeof blank]);
    memcpy(areas->main_flash + 8, "version\1", 8);
    memset(areas->record + BHORELMU_RECORD_FIELDS + BHORELMU_FIELD_VERSION_POINTER, 0, 4);
    areas->record[BHORELMU_RECORD_FIELDS + BHORELMU_FIELD_VERSION_POINTER] = 8;
    call(areas, right_sizes, info_packet, sizeof info_packet);
    same("a version of eight bytes", "version\1", areas->reply + 9, 8);
    areas->record[BHORELMU_RECORD_FIELDS + BHORELMU_FIELD_VERSION_POINTER] = 12;
    call(areas, right_sizes, info_packet, sizeof info_packet);
    same("none at a multiple of 4 alone", "\0\0\0\0\0\0\0\0", areas->reply + 9, 8);
}

static void check_ranges(struct areas *areas)
{
    named_board(areas);
    unlock(areas);
    check("Program at a multiple of 8 alone", 0x0A, program(areas, 8, 16));
    check("Program of 8 bytes", 0x0A, program(areas, 0, 8));
    check("Program of 16", 0x00, program(areas, 16, 16));
    check("a word again", NO_MESSAGE, program(areas, 16, 16));
    check("is the Detailed Error", 0x3A, areas->reply[4]);
    check("Program of the window's addresses", 0x05, program(areas, WINDOW_AT, 16));
    check("Program of the other part's settings", 0x05, program(areas, 0x41C00000u, 16));
    check("Verify of 1,024", 0x0B, ask_range(areas, 0x26, 0, 1024));
    check("Verify of 2,048", NO_MESSAGE, ask_range(areas, 0x26, 0, 2048));
    check("Verify's reply", 0x32, areas->reply[4]);
    check("Verify of the settings", NO_MESSAGE, ask_range(areas, 0x26, SETTINGS_AT, 2048));
    check("Read back, readout off", 0x09, ask_range(areas, 0x29, SETTINGS_AT, 1));
    areas->main_flash[SECTOR] = areas->main_flash[2 * SECTOR - 1] = areas->main_flash[2 * SECTOR] = 0;
    check("a sector erased", 0x00, ask_range(areas, 0x23, SECTOR + 1, SECTOR + 1));
    check("its first byte", 0xFF, areas->main_flash[SECTOR]);
    check("its last byte", 0xFF, areas->main_flash[2 * SECTOR - 1]);
    check("the next one's first", 0x00, areas->main_flash[2 * SECTOR]);
}

/* Sector 64 is protected by bit 0 of byte 8, and sector 65 is not, whatever the bits of the first eight bytes are. */
static void check_far_sectors(struct areas *areas)
{
    const uint32_t far = 64 * SECTOR;
    named_board(areas);
    areas->fields[BHORELMU_AM13E230X_FIELD_PROTECTION] = 2;
    areas->fields[BHORELMU_AM13E230X_FIELD_PROTECTION + 8] = 1;
    unlock(areas);
    areas->main_flash[far + 32] = 0x42;
    check("Program of sector 64", 0x05, program(areas, far, 16));
    check("Range erase of it", 0x05, ask_range(areas, 0x23, far, far));
    check("Program of sector 65", 0x00, program(areas, far + SECTOR, 16));
    check("Mass erase", 0x00, told(areas, (const uint8_t[]){0x15}, 1));
    check("keeps sector 64", 0x42, areas->main_flash[far + 32]);
    check("and erases sector 65", 0xFF, areas->main_flash[far + SECTOR]);
}

/* All of the settings flash is erased, by the alert and by Factory reset, though the image is in its first half. */
static void check_second_half(struct areas *areas)
{
    for (int by_alert = 0; by_alert <= 1; by_alert++) {
        named_board(areas);
        areas->fields[BHORELMU_FIELD_ALERT] = BHORELMU_ALERT_RESET;
        unlock(areas);
        check("Program after the image", 0x00, program(areas, SETTINGS_AT + 2032, 16));
        check("it is there", 0x00, areas->settings[2047]);
        for (int i = 0; i < 3 && by_alert; i++)
            check("wrong passwords", i < 2 ? 0x02 : 0x03, try_password(areas, 0x11));
        if (!by_alert)
            check("Factory reset", 0x00, told(areas, (const uint8_t[]){0x30}, 1));
        for (size_t i = 0; i < SETTINGS_SIZE; i++)
            check("the settings are erased", 0xFF, areas->settings[i]);
    }
}

static void check_rates(struct areas *areas)
{
    static const uint32_t rates[] = {4800, 9600, 19200, 38400, 57600, 115200, 1000000, 2000000, 3000000};
    for (uint32_t id = 0; id < 300; id++)
        check("a rate", id >= 1 && id <= 9 ? rates[id - 1] : id == 0x10 ? 4000000 : 0, bhorelmu_am13e230x_rate(id));
    check("a rate id of more than a byte", 0, bhorelmu_am13e230x_rate(0x110));
    named_board(areas);
    unlock(areas);
    for (unsigned id = 0; id < 256; id++) {
        check("one byte answers", 1, send_core(areas, (const uint8_t[]){0x52, (uint8_t)id}, 2));
        check("00 or 56", (id >= 1 && id <= 9) || id == 0x10 ? 0x00 : 0x56, areas->reply[0]);
    }
    check("the last rate that was taken", 0x10, areas->record[BHORELMU_RECORD_RATE_ID]);
}

int main(void)
{
    static struct areas areas;
    check_images(&areas);
    check_start(&areas);
    check_call_sizes(&areas);
    check_other_part(&areas);
    check_record_bytes(&areas);
    check_fields(&areas);
    check_info(&areas);
    check_ranges(&areas);
    check_far_sectors(&areas);
    check_second_half(&areas);
    check_rates(&areas);
    printf("AM13E230x: %u checks, %u failed\n", checks, failures);
    return failures != 0;
}
