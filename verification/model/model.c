/*
 * The sections stand in the order of document 01. Where a request of document 02 is built, its rule stands in their place.
 * Compiled as it is, this is the MSPM0's loader; with AM13E230X defined it is that of T-10's part. The rules are the same,
 * and the numbers of each part stand in a file of their own.
 */

#include "model.h"

#ifdef AM13E230X
#include "am13e230x.h"
#else
#include "mspm0.h"
#endif

#include <stdbool.h>
#include <string.h>

/* ---- Sizes ---- */

enum { CORE_LARGEST = 1721, REPLY_AREA = 1729 };
enum { FRAME_SIZE = 7 }; /* header, length (2) and checksum (4) around a core */

static uint16_t get16(const uint8_t *from)
{
    return (uint16_t)(from[0] | from[1] << 8);
}

static uint32_t get32(const uint8_t *from)
{
    return get16(from) | (uint32_t)get16(from + 2) << 16;
}

static void put16(uint8_t *to, uint32_t value)
{
    to[0] = (uint8_t)value;
    to[1] = (uint8_t)(value >> 8);
}

static void put32(uint8_t *to, uint32_t value)
{
    put16(to, value);
    put16(to + 2, value >> 16);
}

static bool main_size_allowed(size_t size)
{
    return size >= SECTOR_SIZE && size <= MAIN_LARGEST && size % SECTOR_SIZE == 0;
}

/* ---- Checksum ---- */

/* What eight steps of the bit-reversed polynomial 0xEDB88320 make of each byte. */
static const uint32_t checksum_table[256] = {
    0x00000000, 0x77073096, 0xEE0E612C, 0x990951BA, 0x076DC419, 0x706AF48F, 0xE963A535, 0x9E6495A3,
    0x0EDB8832, 0x79DCB8A4, 0xE0D5E91E, 0x97D2D988, 0x09B64C2B, 0x7EB17CBD, 0xE7B82D07, 0x90BF1D91,
    0x1DB71064, 0x6AB020F2, 0xF3B97148, 0x84BE41DE, 0x1ADAD47D, 0x6DDDE4EB, 0xF4D4B551, 0x83D385C7,
    0x136C9856, 0x646BA8C0, 0xFD62F97A, 0x8A65C9EC, 0x14015C4F, 0x63066CD9, 0xFA0F3D63, 0x8D080DF5,
    0x3B6E20C8, 0x4C69105E, 0xD56041E4, 0xA2677172, 0x3C03E4D1, 0x4B04D447, 0xD20D85FD, 0xA50AB56B,
    0x35B5A8FA, 0x42B2986C, 0xDBBBC9D6, 0xACBCF940, 0x32D86CE3, 0x45DF5C75, 0xDCD60DCF, 0xABD13D59,
    0x26D930AC, 0x51DE003A, 0xC8D75180, 0xBFD06116, 0x21B4F4B5, 0x56B3C423, 0xCFBA9599, 0xB8BDA50F,
    0x2802B89E, 0x5F058808, 0xC60CD9B2, 0xB10BE924, 0x2F6F7C87, 0x58684C11, 0xC1611DAB, 0xB6662D3D,
    0x76DC4190, 0x01DB7106, 0x98D220BC, 0xEFD5102A, 0x71B18589, 0x06B6B51F, 0x9FBFE4A5, 0xE8B8D433,
    0x7807C9A2, 0x0F00F934, 0x9609A88E, 0xE10E9818, 0x7F6A0DBB, 0x086D3D2D, 0x91646C97, 0xE6635C01,
    0x6B6B51F4, 0x1C6C6162, 0x856530D8, 0xF262004E, 0x6C0695ED, 0x1B01A57B, 0x8208F4C1, 0xF50FC457,
    0x65B0D9C6, 0x12B7E950, 0x8BBEB8EA, 0xFCB9887C, 0x62DD1DDF, 0x15DA2D49, 0x8CD37CF3, 0xFBD44C65,
    0x4DB26158, 0x3AB551CE, 0xA3BC0074, 0xD4BB30E2, 0x4ADFA541, 0x3DD895D7, 0xA4D1C46D, 0xD3D6F4FB,
    0x4369E96A, 0x346ED9FC, 0xAD678846, 0xDA60B8D0, 0x44042D73, 0x33031DE5, 0xAA0A4C5F, 0xDD0D7CC9,
    0x5005713C, 0x270241AA, 0xBE0B1010, 0xC90C2086, 0x5768B525, 0x206F85B3, 0xB966D409, 0xCE61E49F,
    0x5EDEF90E, 0x29D9C998, 0xB0D09822, 0xC7D7A8B4, 0x59B33D17, 0x2EB40D81, 0xB7BD5C3B, 0xC0BA6CAD,
    0xEDB88320, 0x9ABFB3B6, 0x03B6E20C, 0x74B1D29A, 0xEAD54739, 0x9DD277AF, 0x04DB2615, 0x73DC1683,
    0xE3630B12, 0x94643B84, 0x0D6D6A3E, 0x7A6A5AA8, 0xE40ECF0B, 0x9309FF9D, 0x0A00AE27, 0x7D079EB1,
    0xF00F9344, 0x8708A3D2, 0x1E01F268, 0x6906C2FE, 0xF762575D, 0x806567CB, 0x196C3671, 0x6E6B06E7,
    0xFED41B76, 0x89D32BE0, 0x10DA7A5A, 0x67DD4ACC, 0xF9B9DF6F, 0x8EBEEFF9, 0x17B7BE43, 0x60B08ED5,
    0xD6D6A3E8, 0xA1D1937E, 0x38D8C2C4, 0x4FDFF252, 0xD1BB67F1, 0xA6BC5767, 0x3FB506DD, 0x48B2364B,
    0xD80D2BDA, 0xAF0A1B4C, 0x36034AF6, 0x41047A60, 0xDF60EFC3, 0xA867DF55, 0x316E8EEF, 0x4669BE79,
    0xCB61B38C, 0xBC66831A, 0x256FD2A0, 0x5268E236, 0xCC0C7795, 0xBB0B4703, 0x220216B9, 0x5505262F,
    0xC5BA3BBE, 0xB2BD0B28, 0x2BB45A92, 0x5CB36A04, 0xC2D7FFA7, 0xB5D0CF31, 0x2CD99E8B, 0x5BDEAE1D,
    0x9B64C2B0, 0xEC63F226, 0x756AA39C, 0x026D930A, 0x9C0906A9, 0xEB0E363F, 0x72076785, 0x05005713,
    0x95BF4A82, 0xE2B87A14, 0x7BB12BAE, 0x0CB61B38, 0x92D28E9B, 0xE5D5BE0D, 0x7CDCEFB7, 0x0BDBDF21,
    0x86D3D2D4, 0xF1D4E242, 0x68DDB3F8, 0x1FDA836E, 0x81BE16CD, 0xF6B9265B, 0x6FB077E1, 0x18B74777,
    0x88085AE6, 0xFF0F6A70, 0x66063BCA, 0x11010B5C, 0x8F659EFF, 0xF862AE69, 0x616BFFD3, 0x166CCF45,
    0xA00AE278, 0xD70DD2EE, 0x4E048354, 0x3903B3C2, 0xA7672661, 0xD06016F7, 0x4969474D, 0x3E6E77DB,
    0xAED16A4A, 0xD9D65ADC, 0x40DF0B66, 0x37D83BF0, 0xA9BCAE53, 0xDEBB9EC5, 0x47B2CF7F, 0x30B5FFE9,
    0xBDBDF21C, 0xCABAC28A, 0x53B39330, 0x24B4A3A6, 0xBAD03605, 0xCDD70693, 0x54DE5729, 0x23D967BF,
    0xB3667A2E, 0xC4614AB8, 0x5D681B02, 0x2A6F2B94, 0xB40BBE37, 0xC30C8EA1, 0x5A05DF1B, 0x2D02EF8D
};

/* The usual reflected CRC of 32 bits, not inverted at the end. */
static uint32_t checksum(const uint8_t *bytes, size_t count)
{
    uint32_t sum = 0xFFFFFFFFu;
    for (size_t i = 0; i < count; i++)
        sum = sum >> 8 ^ checksum_table[(sum ^ bytes[i]) & 0xFF];
    return sum;
}

/* ---- Settings image ---- */

enum { ENTRIES_AT = 4, CHECKSUM_AT = 1020, IMAGE_END = 1024 }; /* 0xFF from there on, where the settings are larger */

/* The fields: the first six bodies back to back, the name, the form. A record has the first KEPT_SIZE of them. */
enum { PASSWORD = 0, RESET_PASSWORD = 32, IDS = 54, VERSION_POINTER = 62, PROTECTION = 66 };
enum { RESET_MODE = 48, ALERT = 49, READOUT = 50, SETTINGS_PROTECTED = 52, ZERO = 53 }; /* body 3 */
enum { KEPT_SIZE = PROTECTION + PROTECTION_SIZE, NAME = KEPT_SIZE, NAME_SIZE = 64, FORM = NAME + NAME_SIZE };
enum { FIELDS_SIZE = FORM + 2 };

enum { PASSWORD_SIZE = 32, RESET_PASSWORD_SIZE = 16, IDS_SIZE = 8, READOUT_ON = 0xAABB };
enum { RESET_OFF, RESET_ON, RESET_WITH_PASSWORD };
enum { ALERT_NOTHING, ALERT_RESET, ALERT_DISABLE };

static const uint8_t blank_fields[KEPT_SIZE] = {
    0xFF, 0xFF, 0xFF, 0xFF, 0xFF, 0xFF, 0xFF, 0xFF, 0xFF, 0xFF, 0xFF, 0xFF, 0xFF, 0xFF, 0xFF, 0xFF, /* password */
    0xFF, 0xFF, 0xFF, 0xFF, 0xFF, 0xFF, 0xFF, 0xFF, 0xFF, 0xFF, 0xFF, 0xFF, 0xFF, 0xFF, 0xFF, 0xFF,
    0xFF, 0xFF, 0xFF, 0xFF, 0xFF, 0xFF, 0xFF, 0xFF, 0xFF, 0xFF, 0xFF, 0xFF, 0xFF, 0xFF, 0xFF, 0xFF, /* reset's */
    RESET_ON, ALERT_NOTHING, 0xFF, 0xFF, 0, 0,
    1, 0, 0, 0, 1, 0, 0, 0,  /* both ids */
    0xFF, 0xFF, 0xFF, 0xFF}; /* version pointer; no sector is protected */

static bool all_ones(const uint8_t *bytes, size_t count)
{
    return bytes[0] == 0xFF && memcmp(bytes, bytes + 1, count - 1) == 0;
}

static bool body_3_allowed(const uint8_t *fields)
{
    return fields[RESET_MODE] <= RESET_WITH_PASSWORD && fields[ALERT] <= ALERT_DISABLE &&
           fields[SETTINGS_PROTECTED] <= 1 && fields[ZERO] == 0;
}

/* The form that an image says, of those that are taken; NULL where it says none of them. */
static const struct form *form_in(const uint8_t *image, const struct form *const *taken)
{
    for (; *taken != NULL; taken++)
        if (get16(image) == (*taken)->number && get16(image + 2) == (*taken)->entry_count)
            return *taken;
    return NULL;
}

/* The form of a number; NULL where the part has none of it. */
static const struct form *form_numbered(unsigned number)
{
    for (const struct form *const *form = forms; *form != NULL; form++)
        if ((*form)->number == number)
            return *form;
    return NULL;
}

/* Which entry is the first to differ, 1 being the first of all; 0 where none does. */
static unsigned differing_entry(const struct form *form, const uint8_t *image)
{
    const uint8_t *field = image + ENTRIES_AT;
    for (unsigned entry = 0; entry < form->entry_count; entry++)
        for (unsigned i = 0; i < ENTRY_FIELDS; i++, field += 2)
            if (get16(field) != form->entries[entry][i])
                return entry + 1;
    return 0;
}

/* The fields of an image, or those of a blank one where there is no form. */
static void read_fields(const struct form *form, const uint8_t *image, uint8_t *fields)
{
    memcpy(fields, form != NULL ? image + form->bodies_at : blank_fields, KEPT_SIZE);
    memset(fields + NAME, 0xFF, NAME_SIZE);
    if (form == &form_2)
        memcpy(fields + NAME, image + form_2.bodies_at + KEPT_SIZE, NAME_SIZE);
    put16(fields + FORM, form != NULL ? form->number : BLANK_FORM);
}

static void write_image(const struct form *form, const uint8_t *fields, uint8_t *image)
{
    uint8_t *field = image + ENTRIES_AT;
    put16(image, form->number);
    put16(image + 2, form->entry_count);
    for (unsigned entry = 0; entry < form->entry_count; entry++)
        for (unsigned i = 0; i < ENTRY_FIELDS; i++, field += 2)
            put16(field, form->entries[entry][i]);
    memcpy(image + form->bodies_at, fields, form->filler_at - form->bodies_at); /* in form 2 the name too */
    memset(image + form->filler_at, 0xFF, CHECKSUM_AT - form->filler_at);
    put32(image + CHECKSUM_AT, checksum(image, CHECKSUM_AT));
    memset(image + IMAGE_END, 0xFF, SETTINGS_SIZE - IMAGE_END);
}

/* ---- Numbers of refused calls ---- */

enum { AT_PHASE, AT_LOCK, AT_WRONG_COUNT, AT_RATE_ID, AT_SLEEP, AT_IDLE = 8, AT_TRIES = 12, AT_MAIN_SIZE = 16, AT_FIELDS = 20 };
enum { RECORD_SIZE = AT_FIELDS + KEPT_SIZE };
enum { SLEEP_LARGEST = 2000, IDLE_LIMIT = 10000, WRONG_LARGEST = 3, RATE_AT_START = 2 };
enum { TRIES_LARGEST = 65535 }; /* T-08 */

enum phase { DETECT, COMMAND, STANDBY, ENDED, DISABLED };

static uint64_t refused(unsigned number)
{
    return (uint64_t)number << 56;
}

/* Refusals 3 to 8, of an image in one of the forms that are taken. A blank one has none. */
static uint64_t judge_image(const uint8_t *image, size_t size, const struct form *const *taken, const struct form **form)
{
    *form = NULL;
    if (size != SETTINGS_SIZE)
        return refused(3);
    if (all_ones(image, SETTINGS_SIZE))
        return 0;
    if (checksum(image, CHECKSUM_AT) != get32(image + CHECKSUM_AT))
        return refused(4);
    *form = form_in(image, taken);
    if (*form == NULL)
        return refused(5);
    unsigned entry = differing_entry(*form, image);
    if (entry != 0)
        return refused(6) | entry;
    if (!all_ones(image + (*form)->filler_at, CHECKSUM_AT - (*form)->filler_at))
        return refused(7);
    if (size > IMAGE_END && !all_ones(image + IMAGE_END, size - IMAGE_END))
        return refused(7);
    return body_3_allowed(image + (*form)->bodies_at) ? 0 : refused(8);
}

static bool is_rate(uint32_t id)
{
    return (id >= 1 && id <= 9) || id == LAST_RATE;
}

/* Refusal 10, apart from the sizes lent. A byte that no session gives is no record's either. */
static bool is_record(const uint8_t *record)
{
    bool unlocked = record[AT_LOCK] == 1;
    uint32_t sleep = get32(record + AT_SLEEP), tries = get32(record + AT_TRIES);
    if (record[AT_PHASE] > DISABLED || record[AT_LOCK] > 1)
        return false;
    if (get32(record + AT_IDLE) >= IDLE_LIMIT || sleep > SLEEP_LARGEST || record[AT_WRONG_COUNT] > WRONG_LARGEST)
        return false;
    if (tries < record[AT_WRONG_COUNT] || tries > TRIES_LARGEST)
        return false;
    if (!is_rate(record[AT_RATE_ID]))
        return false;
    if ((unlocked || sleep > 0) && record[AT_PHASE] != COMMAND)
        return false;
    if (unlocked && sleep > 0)
        return false;
    return main_size_allowed(get32(record + AT_MAIN_SIZE)) && body_3_allowed(record + AT_FIELDS);
}

/* ---- Phases and waits ---- */

/* One call's session and board. The fields stay in the record: no command changes them. */
struct loader {
    uint8_t phase, wrong_count, rate_id;
    bool unlocked, burn;
    uint32_t sleep, idle, tries, main_size;
    const uint8_t *fields;
    uint8_t *main_flash, *settings, *window;
};

static struct loader decode(const uint8_t *record, uint8_t *main_flash, uint8_t *settings, uint8_t *window)
{
    return (struct loader){.phase = record[AT_PHASE],
                           .unlocked = record[AT_LOCK] == 1,
                           .wrong_count = record[AT_WRONG_COUNT],
                           .rate_id = record[AT_RATE_ID],
                           .sleep = get32(record + AT_SLEEP),
                           .idle = get32(record + AT_IDLE),
                           .tries = get32(record + AT_TRIES),
                           .fields = record + AT_FIELDS,
                           .main_flash = main_flash,
                           .main_size = get32(record + AT_MAIN_SIZE),
                           .settings = settings,
                           .window = window};
}

static void encode(const struct loader *loader, uint8_t *record)
{
    record[AT_PHASE] = loader->phase;
    record[AT_LOCK] = loader->unlocked;
    record[AT_WRONG_COUNT] = loader->wrong_count;
    record[AT_RATE_ID] = loader->rate_id;
    put32(record + AT_SLEEP, loader->sleep);
    put32(record + AT_IDLE, loader->idle);
    put32(record + AT_TRIES, loader->tries);
}

/* Rules (b) and (c). False while still asleep, when the packet is dropped. */
static bool pass_time(struct loader *loader, uint32_t wait)
{
    if (loader->sleep > wait) {
        loader->sleep -= wait;
        return false;
    }
    uint64_t idle = (uint64_t)loader->idle + (wait - loader->sleep);
    loader->sleep = 0;
    if (idle < IDLE_LIMIT) {
        loader->idle = (uint32_t)idle;
        return true;
    }
    loader->idle = 0;
    loader->unlocked = false;
    if (loader->phase == DETECT)
        loader->phase = STANDBY;
    return true;
}

/* ---- Acknowledgement ---- */

enum command {
    CONNECT = 0x12, MASS_ERASE = 0x15, INFO = 0x19, PROGRAM = 0x20, UNLOCK = 0x21, RANGE_ERASE = 0x23,
    PROGRAM_FAST = 0x24, VERIFY = 0x26, READ_BACK = 0x29, FACTORY_RESET = 0x30, START = 0x40, RATE = 0x52
};

enum acknowledgement {
    ACKNOWLEDGED = 0x00, HEADER_INCORRECT = 0x51, CHECKSUM_INCORRECT = 0x52, SIZE_ZERO = 0x53,
    SIZE_TOO_BIG = 0x54, UNKNOWN_ERROR = 0x55, UNKNOWN_RATE = 0x56
};

enum { COMMAND_HEADER = 0x80, REPLY_HEADER = 0x08 };

static uint8_t acknowledgement(const uint8_t *packet, size_t size)
{
    if (packet[0] != COMMAND_HEADER)
        return HEADER_INCORRECT;
    if (size < 3)
        return UNKNOWN_ERROR;
    size_t length = get16(packet + 1);
    if (length == 0)
        return SIZE_ZERO;
    if (length > CORE_LARGEST)
        return SIZE_TOO_BIG;
    if (size != length + FRAME_SIZE)
        return UNKNOWN_ERROR;
    const uint8_t *core = packet + 3;
    if (checksum(core, length) != get32(core + length))
        return CHECKSUM_INCORRECT;
    if (core[0] == RATE && (length != 2 || !is_rate(core[1])))
        return UNKNOWN_RATE;
    return ACKNOWLEDGED;
}

/* ---- Commands ---- */

enum message {
    DONE = 0x00, LOCKED = 0x01, PASSWORD_WRONG = 0x02, ALERTED = 0x03, UNKNOWN_COMMAND = 0x04, RANGE_INVALID = 0x05,
    COMMAND_INVALID = 0x06, RESET_DISABLED = 0x07, RESET_PASSWORD_WRONG = 0x08, READOUT_DISABLED = 0x09,
    NOT_ALIGNED = 0x0A, VERIFY_TOO_SHORT = 0x0B, FLASH_ERROR = 0xF0 /* no message: sent as a Detailed Error */
};

enum core_reply { MEMORY = 0x30, DEVICE_INFO = 0x31, VERIFY_CHECKSUM = 0x32, DETAILED_ERROR = 0x3A, MESSAGE = 0x3B };

enum { READ_BACK_LARGEST = CORE_LARGEST - 1 };

static bool is_known(uint8_t command)
{
    static const uint8_t twelve[] = {CONNECT, MASS_ERASE, INFO, PROGRAM, UNLOCK, RANGE_ERASE,
                                     PROGRAM_FAST, VERIFY, READ_BACK, FACTORY_RESET, START, RATE};
    return memchr(twelve, command, sizeof twelve) != NULL;
}

static bool is_protected(uint8_t command)
{
    return command != CONNECT && command != INFO && command != UNLOCK && command != START && command != RATE;
}

static bool is_silent(uint8_t command)
{
    return command == CONNECT || command == PROGRAM_FAST || command == START || command == RATE;
}

static bool length_right(uint8_t command, size_t length)
{
    switch (command) {
    case UNLOCK:
        return length == 1 + PASSWORD_SIZE;
    case RANGE_ERASE:
    case READ_BACK:
    case VERIFY:
        return length == 9;
    case PROGRAM:
    case PROGRAM_FAST:
        return length >= 6;
    case FACTORY_RESET:
        return length == 1 || length == 1 + RESET_PASSWORD_SIZE;
    case RATE:
        return length == 2;
    default:
        return length == 1;
    }
}

static bool sector_protected(const struct loader *loader, uint32_t sector)
{
    return loader->fields[PROTECTION + sector / 8] >> sector % 8 & 1;
}

static void erase_sectors(struct loader *loader, uint32_t first, uint32_t last)
{
    for (uint32_t sector = first; sector <= last; sector++)
        if (!sector_protected(loader, sector))
            memset(loader->main_flash + sector * SECTOR_SIZE, 0xFF, SECTOR_SIZE);
}

static void erase_main(struct loader *loader)
{
    erase_sectors(loader, 0, loader->main_size / SECTOR_SIZE - 1);
}

static void erase_everything(struct loader *loader)
{
    erase_main(loader);
    if (!loader->fields[SETTINGS_PROTECTED])
        memset(loader->settings, 0xFF, SETTINGS_SIZE);
}

static bool in_window(uint32_t address)
{
    return address >= WINDOW_START && address < WINDOW_START + WINDOW_SIZE;
}

/* Where a range lies that is wholly in one region, else NULL. Nothing is added to `first`, so that nothing wraps. */
static uint8_t *locate(const struct loader *loader, uint32_t first, uint32_t count)
{
    if (first < loader->main_size)
        return count <= loader->main_size - first ? loader->main_flash + first : NULL;
    if (in_window(first))
        return count <= WINDOW_START + WINDOW_SIZE - first ? loader->window + (first - WINDOW_START) : NULL;
    uint32_t offset = first - SETTINGS_START; /* large where first lies below */
    if (offset < SETTINGS_SIZE && count <= SETTINGS_SIZE - offset)
        return loader->settings + offset;
    return NULL;
}

/* Whether a range has a protected place; its first and its last address lie in one region of flash. */
static bool range_protected(const struct loader *loader, uint32_t first, uint32_t last)
{
    if (first >= loader->main_size)
        return loader->fields[SETTINGS_PROTECTED];
    for (uint32_t sector = first / SECTOR_SIZE; sector <= last / SECTOR_SIZE; sector++)
        if (sector_protected(loader, sector))
            return true;
    return false;
}

static enum message program(struct loader *loader, const uint8_t *core, size_t length)
{
    uint32_t first = get32(core + 1);
    uint32_t count = (uint32_t)length - 5;
    uint8_t *place = locate(loader, first, count);
    if (place == NULL)
        return RANGE_INVALID;
    if (in_window(first)) {
        memcpy(place, core + 5, count);
        return DONE;
    }
    if (first % PROGRAM_UNIT != 0 || count % PROGRAM_UNIT != 0)
        return NOT_ALIGNED;
    if (range_protected(loader, first, first + count - 1))
        return RANGE_INVALID;
    if (!all_ones(place, count))
        return FLASH_ERROR;
    memcpy(place, core + 5, count);
    return DONE;
}

static enum message range_erase(struct loader *loader, const uint8_t *core)
{
    uint32_t start = get32(core + 1);
    uint32_t end = get32(core + 5);
    if (start > end || end >= loader->main_size)
        return RANGE_INVALID;
    if (range_protected(loader, start, end))
        return RANGE_INVALID;
    erase_sectors(loader, start / SECTOR_SIZE, end / SECTOR_SIZE);
    return DONE;
}

static enum message factory_reset(struct loader *loader, const uint8_t *core, size_t length)
{
    const uint8_t *fields = loader->fields;
    if (fields[RESET_MODE] == RESET_OFF)
        return RESET_DISABLED;
    if (fields[RESET_MODE] == RESET_WITH_PASSWORD &&
        (length == 1 || memcmp(core + 1, fields + RESET_PASSWORD, RESET_PASSWORD_SIZE) != 0))
        return RESET_PASSWORD_WRONG;
    erase_everything(loader);
    return DONE;
}

static enum message wrong_password(struct loader *loader)
{
    loader->unlocked = false;
    loader->rate_id = RATE_AT_START;
    loader->sleep = SLEEP_LARGEST;
    if (loader->tries < TRIES_LARGEST) /* T-08: how many in all; nothing clears it */
        loader->tries++;
    if (loader->wrong_count < WRONG_LARGEST)
        loader->wrong_count++;
    if (loader->wrong_count < WRONG_LARGEST)
        return PASSWORD_WRONG;
    if (loader->fields[ALERT] == ALERT_RESET)
        erase_everything(loader);
    if (loader->fields[ALERT] == ALERT_DISABLE) {
        loader->phase = DISABLED;
        loader->sleep = 0;
        loader->burn = true;
    }
    return ALERTED;
}

/* The session's password decides, whatever stands in the settings flash by now. */
static enum message unlock(struct loader *loader, const uint8_t *core)
{
    if (memcmp(core + 1, loader->fields + PASSWORD, PASSWORD_SIZE) != 0)
        return wrong_password(loader);
    loader->unlocked = true;
    loader->wrong_count = 0;
    return DONE;
}

static size_t send_message(uint8_t *reply, enum message message)
{
    reply[0] = MESSAGE;
    reply[1] = (uint8_t)message;
    return 2;
}

static size_t send_outcome(uint8_t *reply, enum message outcome)
{
    if (outcome != FLASH_ERROR)
        return send_message(reply, outcome);
    reply[0] = DETAILED_ERROR;
    reply[1] = FLASH_ERROR;
    put16(reply + 2, 0); /* two details */
    return 4;
}

static size_t info(const struct loader *loader, uint8_t *reply)
{
    uint32_t pointer = get32(loader->fields + VERSION_POINTER);
    bool in_main = pointer % VERSION_SIZE == 0 && pointer <= loader->main_size - VERSION_SIZE;
    uint8_t *version = reply + 5, *rest = version + VERSION_SIZE;
    reply[0] = DEVICE_INFO;
    put16(reply + 1, 0x0100);
    put16(reply + 3, 0x0100);
    memset(version, 0, VERSION_SIZE);
    if (in_main)
        memcpy(version, loader->main_flash + pointer, VERSION_SIZE);
    put16(rest, 0x0001);
    put16(rest + 2, 0x06C0);
    put32(rest + 4, 0x20000160u);
    memcpy(rest + 8, loader->fields + IDS, IDS_SIZE);
    return 21 + VERSION_SIZE;
}

static size_t read_back(const struct loader *loader, const uint8_t *core, uint8_t *reply)
{
    uint32_t count = get32(core + 5);
    const uint8_t *place = locate(loader, get32(core + 1), count);
    if (get16(loader->fields + READOUT) != READOUT_ON)
        return send_message(reply, READOUT_DISABLED);
    if (count == 0 || count > READ_BACK_LARGEST || place == NULL)
        return send_message(reply, RANGE_INVALID);
    reply[0] = MEMORY;
    memcpy(reply + 1, place, count);
    return 1 + count;
}

static size_t verify(const struct loader *loader, const uint8_t *core, uint8_t *reply)
{
    uint32_t count = get32(core + 5);
    const uint8_t *place = locate(loader, get32(core + 1), count);
    if (count < VERIFY_LEAST)
        return send_message(reply, VERIFY_TOO_SHORT);
    if (place == NULL || in_window(get32(core + 1)))
        return send_message(reply, RANGE_INVALID);
    reply[0] = VERIFY_CHECKSUM;
    put32(reply + 1, checksum(place, count));
    return 5;
}

/* Whether a command may run: it must be known, not shut out by the lock, and of its own length, looked at in this order. */
static enum message standing(const struct loader *loader, uint8_t command, size_t length)
{
    if (!is_known(command))
        return UNKNOWN_COMMAND;
    if (is_protected(command) && !loader->unlocked)
        return LOCKED;
    return length_right(command, length) ? DONE : COMMAND_INVALID;
}

/* A command that stands: what it does, and how many bytes its core reply has. */
static size_t act(struct loader *loader, const uint8_t *core, size_t length, uint8_t *reply)
{
    switch (core[0]) {
    case INFO:
        return info(loader, reply);
    case UNLOCK:
        return send_message(reply, unlock(loader, core));
    case RANGE_ERASE:
        return send_message(reply, range_erase(loader, core));
    case MASS_ERASE:
        erase_main(loader);
        return send_message(reply, DONE);
    case PROGRAM:
        return send_outcome(reply, program(loader, core, length));
    case PROGRAM_FAST:
        program(loader, core, length);
        return 0;
    case READ_BACK:
        return read_back(loader, core, reply);
    case VERIFY:
        return verify(loader, core, reply);
    case FACTORY_RESET:
        return send_message(reply, factory_reset(loader, core, length));
    case START:
        loader->phase = ENDED;
        loader->unlocked = false;
        return 0;
    case RATE:
        loader->rate_id = core[1];
        return 0;
    default: /* Connect */
        return 0;
    }
}

static size_t obey(struct loader *loader, const uint8_t *core, size_t length, uint8_t *reply)
{
    enum message refusal = standing(loader, core[0], length);
    if (refusal != UNKNOWN_COMMAND)
        loader->idle = 0;
    if (refusal == DONE)
        return act(loader, core, length, reply);
    return is_silent(core[0]) ? 0 : send_message(reply, refusal);
}

/* ---- A packet in each phase ---- */

static size_t serve_detect(struct loader *loader, const uint8_t *packet, size_t size, uint8_t *reply)
{
    static const uint8_t connect[] = {COMMAND_HEADER, 0x01, 0x00, CONNECT, 0x3A, 0x61, 0x44, 0xDE};
    if (size != sizeof connect || memcmp(packet, connect, size) != 0)
        return 0;
    loader->phase = COMMAND;
    loader->idle = 0;
    reply[0] = ACKNOWLEDGED;
    return 1;
}

static size_t serve_command(struct loader *loader, const uint8_t *packet, size_t size, uint8_t *reply)
{
    reply[0] = acknowledgement(packet, size);
    if (reply[0] != ACKNOWLEDGED)
        return 1;
    uint8_t *core = reply + 4;
    size_t length = obey(loader, packet + 3, size - FRAME_SIZE, core);
    if (length == 0)
        return 1;
    reply[1] = REPLY_HEADER;
    put16(reply + 2, (uint32_t)length);
    put32(core + length, checksum(core, length));
    return 1 + length + FRAME_SIZE;
}

static size_t serve(struct loader *loader, const uint8_t *packet, size_t size, uint8_t *reply)
{
    if (size == 0)
        return 0;
    if (loader->phase == DETECT)
        return serve_detect(loader, packet, size, reply);
    if (loader->phase == COMMAND)
        return serve_command(loader, packet, size, reply);
    return 0; /* the wait has just ended the detect phase */
}

/* ---- The calls ---- */

/* Of MAIN and of the window start looks at the size alone. */
static uint64_t start(uint32_t fuse, size_t main_size, const uint8_t *settings, size_t settings_size, size_t window_size,
                      uint8_t *record, size_t record_size)
{
    const struct form *form;
    if (fuse != 0)
        return refused(1);
    if (!main_size_allowed(main_size))
        return refused(2);
    if (settings_size == SETTINGS_SIZE && window_size != WINDOW_SIZE)
        return refused(11);
    uint64_t answer = judge_image(settings, settings_size, forms, &form);
    if (answer != 0)
        return answer;
    if (record_size != RECORD_SIZE)
        return refused(10);
    memset(record, 0, AT_FIELDS);
    record[AT_PHASE] = DETECT;
    record[AT_RATE_ID] = RATE_AT_START;
    put32(record + AT_MAIN_SIZE, (uint32_t)main_size);
    memcpy(record + AT_FIELDS, form != NULL ? settings + form->bodies_at : blank_fields, KEPT_SIZE);
    return 0;
}

static uint64_t call(uint8_t *record, size_t record_size, uint8_t *main_flash, size_t main_size, uint8_t *settings,
                     size_t settings_size, uint8_t *window, size_t window_size, uint32_t wait, const uint8_t *packet,
                     size_t packet_size, uint8_t *reply, size_t reply_size)
{
    if (reply_size < REPLY_AREA)
        return refused(9);
    if (window_size != WINDOW_SIZE)
        return refused(11);
    if (record_size != RECORD_SIZE || !is_record(record))
        return refused(10);
    if (settings_size != SETTINGS_SIZE || main_size != get32(record + AT_MAIN_SIZE))
        return refused(10);
    if (record[AT_PHASE] > COMMAND)
        return 0;
    struct loader loader = decode(record, main_flash, settings, window);
    size_t length = 0;
    if (pass_time(&loader, wait))
        length = serve(&loader, packet, packet_size, reply);
    encode(&loader, record);
    return (uint64_t)loader.burn << 32 | length;
}

static uint64_t settings_read(const uint8_t *image, size_t image_size, uint8_t *fields, size_t fields_size)
{
    const struct form *form;
    uint64_t answer = judge_image(image, image_size, forms, &form);
    if (answer != 0)
        return answer;
    if (fields_size != FIELDS_SIZE)
        return refused(10);
    read_fields(form, image, fields);
    return 0;
}

static uint64_t settings_write(const uint8_t *fields, size_t fields_size, uint8_t *image, size_t image_size)
{
    if (image_size != SETTINGS_SIZE)
        return refused(3);
    if (fields_size != FIELDS_SIZE)
        return refused(10);
    const struct form *form = form_numbered(get16(fields + FORM));
    if (form == NULL)
        return refused(5);
    if (!body_3_allowed(fields))
        return refused(8);
    if (form != &form_2 && !all_ones(fields + NAME, NAME_SIZE))
        return refused(41);
    write_image(form, fields, image);
    return 0;
}

static uint32_t rate(uint32_t id)
{
    static const uint32_t rates[] = {4800, 9600, 19200, 38400, 57600, 115200, 1000000, 2000000, 3000000};
    if (!is_rate(id))
        return 0;
    return id <= 9 ? rates[id - 1] : 4000000;
}

#ifndef AM13E230X

/* ---- What the MSPM0 alone has: the moves of T-09, the mending of T-11 ---- */

uint64_t model_settings_to_form_2(uint8_t *image, size_t image_size)
{
    static const struct form *const taken[] = {&form_1, NULL};
    const struct form *form;
    uint8_t fields[FIELDS_SIZE];
    uint64_t answer = judge_image(image, image_size, taken, &form);
    if (answer != 0 || form == NULL)
        return answer;
    read_fields(form, image, fields);
    write_image(&form_2, fields, image);
    return 0;
}

uint64_t model_settings_to_form_1(uint8_t *image, size_t image_size)
{
    static const struct form *const taken[] = {&form_2, NULL};
    const struct form *form;
    uint8_t fields[FIELDS_SIZE];
    uint64_t answer = judge_image(image, image_size, taken, &form);
    if (answer != 0 || form == NULL)
        return answer;
    read_fields(form, image, fields);
    if (!all_ones(fields + NAME, NAME_SIZE))
        return refused(41);
    write_image(&form_1, fields, image);
    return 0;
}

/* T-11: the counts of changed bytes, two bytes each: table, filler, values, checksum. */
enum { BODY_3 = RESET_MODE, BODY_3_SIZE = 6, COUNTS_SIZE = 8 };

/* What body 3 does not allow becomes what a blank image has; any readout is allowed. */
static void mend_body_3(uint8_t *fields)
{
    if (fields[RESET_MODE] > RESET_WITH_PASSWORD)
        fields[RESET_MODE] = blank_fields[RESET_MODE];
    if (fields[ALERT] > ALERT_DISABLE)
        fields[ALERT] = blank_fields[ALERT];
    if (fields[SETTINGS_PROTECTED] > 1)
        fields[SETTINGS_PROTECTED] = blank_fields[SETTINGS_PROTECTED];
    fields[ZERO] = 0;
}

static void put_changed(uint8_t *count, const uint8_t *before, const uint8_t *after, size_t from, size_t to)
{
    unsigned changed = 0;
    for (size_t at = from; at < to; at++)
        changed += before[at] != after[at];
    put16(count, changed);
}

uint64_t model_settings_mend(uint8_t *image, size_t image_size, uint8_t *counts, size_t counts_size)
{
    const size_t body_3 = form_1.bodies_at + BODY_3;
    const struct form *form;
    uint8_t before[SETTINGS_SIZE], fields[FIELDS_SIZE];
    bool accepted = judge_image(image, image_size, forms, &form) == 0;
    if (image_size != SETTINGS_SIZE)
        return refused(3);
    if (!accepted && get16(image) == form_2.number && get16(image + 2) == form_2.entry_count)
        return refused(5);
    if (counts_size != COUNTS_SIZE)
        return refused(10);
    memcpy(before, image, SETTINGS_SIZE);
    if (!accepted) {
        read_fields(&form_1, image, fields);
        mend_body_3(fields);
        write_image(&form_1, fields, image);
    }
    put_changed(counts, before, image, 0, form_1.bodies_at);
    put_changed(counts + 2, before, image, form_1.filler_at, CHECKSUM_AT);
    put_changed(counts + 4, before, image, body_3, body_3 + BODY_3_SIZE);
    put_changed(counts + 6, before, image, CHECKSUM_AT, SETTINGS_SIZE);
    return 0;
}

#endif

/* ---- From C ---- */

#ifdef AM13E230X

uint64_t model_am13e230x_start(uint32_t fuse, const uint8_t *main_flash, size_t main_size, const uint8_t *settings,
                               size_t settings_size, uint8_t *record, size_t record_size)
{
    (void)main_flash;
    return start(fuse, main_size, settings, settings_size, WINDOW_SIZE, record, record_size);
}

uint64_t model_am13e230x_call(uint8_t *record, size_t record_size, uint8_t *main_flash, size_t main_size,
                              uint8_t *settings, size_t settings_size, uint32_t wait, const uint8_t *packet,
                              size_t packet_size, uint8_t *reply, size_t reply_size)
{
    return call(record, record_size, main_flash, main_size, settings, settings_size, NULL, WINDOW_SIZE, wait, packet,
                packet_size, reply, reply_size);
}

uint64_t model_am13e230x_settings_read(const uint8_t *image, size_t image_size, uint8_t *fields, size_t fields_size)
{
    return settings_read(image, image_size, fields, fields_size);
}

uint64_t model_am13e230x_settings_write(const uint8_t *fields, size_t fields_size, uint8_t *image, size_t image_size)
{
    return settings_write(fields, fields_size, image, image_size);
}

uint32_t model_am13e230x_rate(uint32_t id)
{
    return rate(id);
}

#else

uint64_t model_start(uint32_t fuse, const uint8_t *main_flash, size_t main_size, const uint8_t *settings,
                     size_t settings_size, const uint8_t *window, size_t window_size, uint8_t *record,
                     size_t record_size)
{
    (void)main_flash;
    (void)window;
    return start(fuse, main_size, settings, settings_size, window_size, record, record_size);
}

uint64_t model_call(uint8_t *record, size_t record_size, uint8_t *main_flash, size_t main_size, uint8_t *settings,
                    size_t settings_size, uint8_t *window, size_t window_size, uint32_t wait, const uint8_t *packet,
                    size_t packet_size, uint8_t *reply, size_t reply_size)
{
    return call(record, record_size, main_flash, main_size, settings, settings_size, window, window_size, wait, packet,
                packet_size, reply, reply_size);
}

uint64_t model_settings_read(const uint8_t *image, size_t image_size, uint8_t *fields, size_t fields_size)
{
    return settings_read(image, image_size, fields, fields_size);
}

uint64_t model_settings_write(const uint8_t *fields, size_t fields_size, uint8_t *image, size_t image_size)
{
    return settings_write(fields, fields_size, image, image_size);
}

uint32_t model_rate(uint32_t id)
{
    return rate(id);
}

#endif
