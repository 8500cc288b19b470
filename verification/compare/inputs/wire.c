#include "wire.h"

#include <string.h>

const uint8_t command_codes[COMMANDS] = {0x12, 0x19, 0x21, 0x23, 0x15, 0x20, 0x24, 0x29, 0x26, 0x30, 0x40, 0x52};

const char *const command_names[COMMANDS] = {"Connect",    "Info",    "Unlock",       "Range erase",
                                             "Mass erase", "Program", "Program fast", "Read back",
                                             "Verify",     "Factory reset", "Start",  "Rate"};

uint32_t read16(const uint8_t *from)
{
    return from[0] + 256u * from[1];
}

uint32_t read32(const uint8_t *from)
{
    return read16(from) + 65536u * read16(from + 2);
}

void write16(uint8_t *to, uint32_t value)
{
    to[0] = (uint8_t)(value % 256);
    to[1] = (uint8_t)(value / 256 % 256);
}

void write32(uint8_t *to, uint32_t value)
{
    write16(to, value % 65536);
    write16(to + 2, value / 65536);
}

static uint32_t eight_steps(uint32_t sum)
{
    for (int i = 0; i < 8; i++)
        sum = sum % 2 == 1 ? sum / 2 ^ 0xEDB88320u : sum / 2;
    return sum;
}

uint32_t crc(const uint8_t *bytes, size_t count)
{
    static uint32_t table[256];
    uint32_t sum = 0xFFFFFFFFu;
    if (table[255] == 0)
        for (uint32_t byte = 0; byte < 256; byte++)
            table[byte] = eight_steps(byte);
    for (size_t i = 0; i < count; i++)
        sum = sum / 256 ^ table[(sum ^ bytes[i]) % 256];
    return sum;
}

size_t frame(const uint8_t *core, size_t length, uint8_t *packet)
{
    packet[0] = 0x80;
    write16(packet + 1, (uint32_t)length);
    memmove(packet + 3, core, length);
    write32(packet + 3 + length, crc(packet + 3, length));
    return length + 7;
}

void sign_image(uint8_t *image)
{
    write32(image + IMAGE_CHECKSUM_AT, crc(image, IMAGE_CHECKSUM_AT));
}

int is_form_2(const uint8_t *image)
{
    return read16(image) == 2;
}

size_t fields_at(const uint8_t *image)
{
    return is_form_2(image) ? FIELDS_AT_2 : FIELDS_AT_1;
}

static const uint8_t table_1[FIELDS_AT_1] = {1, 0, 6,   0,              /* form, count */
                                             1, 0, 52,  0, 32, 0, 0, 0, /* password */
                                             2, 0, 84,  0, 16, 0, 0, 0, /* reset password */
                                             3, 0, 100, 0, 6,  0, 0, 0, /* modes */
                                             4, 0, 106, 0, 8,  0, 0, 0, /* ids */
                                             5, 0, 114, 0, 4,  0, 0, 0, /* version pointer */
                                             6, 0, 118, 0, 8,  0, 0, 0 /* protection */};

static const uint8_t table_2[FIELDS_AT_2] = {2, 0, 7,   0,              /* form, count */
                                             1, 0, 60,  0, 32, 0, 0, 0, /* as in form 1, 8 bytes on */
                                             2, 0, 92,  0, 16, 0, 0, 0, /**/
                                             3, 0, 108, 0, 6,  0, 0, 0, /**/
                                             4, 0, 114, 0, 8,  0, 0, 0, /**/
                                             5, 0, 122, 0, 4,  0, 0, 0, /**/
                                             6, 0, 126, 0, PROTECTION_BYTES, 0, 0, 0,
                                             7, 0, IMAGE_NAME_AT, 0, 64, 0, 0, 0};

void make_image(const uint8_t *fields, uint8_t *image)
{
    memset(image, 0xFF, SETTINGS_BYTES);
    if (read16(fields + FORM_AT) == 2) {
        memcpy(image, table_2, sizeof table_2);
        memcpy(image + FIELDS_AT_2, fields, KEPT_BYTES);
        memcpy(image + IMAGE_NAME_AT, fields + NAME_AT, NAME_BYTES);
    } else {
        memcpy(image, table_1, sizeof table_1);
        memcpy(image + FIELDS_AT_1, fields, FILLER_AT_1 - FIELDS_AT_1);
    }
    sign_image(image);
}
