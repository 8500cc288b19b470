#include "packets.h"

#include "wire.h"

#include <string.h>

/* ---- Ranges ---- */

/* An address in a sector from the 65th on, of a MAIN that has one. */
static uint32_t choose_far(struct dice *dice, uint32_t main_size)
{
    uint32_t first = 64 * SECTOR;
    return first + below(dice, (main_size - first) / WORD) * WORD;
}

static uint32_t choose_address(struct dice *dice, const struct standing *standing)
{
    static const int32_t near[] = {-SECTOR, 1 - SECTOR, -16, -8, -7, -4, -1, 0, 0, 0, 1, 4, 8, 16, SECTOR};
    static const uint32_t far[] = {0x20000000, 0x20001000, 0x80000000, 0x10000,    0xFFFFFC00, 0xFFFFFFF0,
                                   0xFFFFFFF8, 0xFFFFFFF8, 0xFFFFFFFF, 0x41BFFC00, 0x01C00000, 0x41C10000,
                                   0x80000,    0x60100000, 0x60100C00, OTHER_SETTINGS_START};
    uint32_t near_by = (uint32_t)ONE_OF(dice, near);
    if (standing->main_size > 64 * SECTOR && chance(dice, 25))
        return choose_far(dice, standing->main_size);
    switch (below(dice, 16)) {
    case 0:
        return 0;
    case 1:
        return standing->main_size + near_by;
    case 2:
        return SETTINGS_START + near_by;
    case 3:
        return SETTINGS_START + SETTINGS_BYTES + near_by;
    case 4:
        return SETTINGS_START + below(dice, SETTINGS_BYTES / WORD) * WORD;
    case 5:
        return chance(dice, 80) ? ONE_OF(dice, far) : (uint32_t)roll(dice);
    case 6:
        return below(dice, standing->main_size / SECTOR + 1) * SECTOR + near_by;
    case 7:
        return below(dice, standing->main_size);
    case 8:
        return WINDOW_START + near_by;
    case 9:
        return WINDOW_START + WINDOW_SPAN + near_by;
    case 10:
        return WINDOW_START + below(dice, WINDOW_SPAN);
    case 11: /* as for Program, and half as even */
        return below(dice, 2 * standing->main_size / WORD) * (WORD / 2);
    default:
        return below(dice, standing->main_size / WORD) * WORD;
    }
}

/* Bytes from an address to the end of its region; for an address in none, to 2^32. */
static uint32_t bytes_left(const struct standing *standing, uint32_t address)
{
    if (address < standing->main_size)
        return standing->main_size - address;
    if (address - SETTINGS_START < SETTINGS_BYTES)
        return SETTINGS_START + SETTINGS_BYTES - address;
    if (address - WINDOW_START < WINDOW_SPAN)
        return WINDOW_START + WINDOW_SPAN - address;
    return 0 - address;
}

static uint32_t choose_count(struct dice *dice, const struct standing *standing, uint32_t address, uint32_t otherwise)
{
    uint32_t left = bytes_left(standing, address);
    switch (below(dice, 8)) {
    case 0:
        return left;
    case 1:
        return left + (chance(dice, 50) ? 1 : WORD);
    case 2: /* to 2^32 and a little over */
        return 0 - address + WORD * below(dice, 3);
    default:
        return otherwise;
    }
}

/* ---- Cores, one function a command; each returns L ---- */

static size_t unlock_core(struct dice *dice, const struct standing *standing, uint8_t *core)
{
    uint8_t *password = core + 1;
    memcpy(password, standing->fields + PASSWORD_AT, 32);
    if (chance(dice, standing->unlocked || standing->wrong_count > 0 ? 30 : 65))
        return 33;
    switch (below(dice, 5)) {
    case 0:
        password[0] ^= 1;
        break;
    case 1:
        password[31] ^= 0x80;
        break;
    case 2:
        password[below(dice, 32)] ^= (uint8_t)(1u << below(dice, 8));
        break;
    case 3: /* what stands in the flash after an alert reset */
        memset(password, 0xFF, 32);
        break;
    default:
        noise(dice, password, 32);
    }
    return 33;
}

static size_t range_erase_core(struct dice *dice, const struct standing *standing, uint8_t *core)
{
    uint32_t start = choose_address(dice, standing);
    uint32_t end = choose_address(dice, standing);
    if (chance(dice, 40))
        start = below(dice, standing->main_size);
    switch (below(dice, 10)) {
    case 0:
        end = start;
        break;
    case 1:
        end = start - 1;
        break;
    case 2:
        end = standing->main_size - 1 + below(dice, 2);
        break;
    case 3:
        end = start | (SECTOR - 1);
        break;
    case 4:
        end = start + below(dice, 3 * SECTOR);
        break;
    case 5:
        start = below(dice, standing->main_size);
        end = start + below(dice, standing->main_size - start);
        break;
    case 6: /* from the last byte of a sector to the first of another */
        start |= SECTOR - 1;
        end = start + 1 + SECTOR * below(dice, 3);
        break;
    case 7: /* whole sectors */
        start -= start % SECTOR;
        end = start + SECTOR * (1 + below(dice, 3)) - 1;
        break;
    default:
        break;
    }
    write32(core + 1, start);
    write32(core + 5, end);
    return 9;
}

/* Whole words that go up to a sector's edge, on from it or over it; also the edge where MAIN ends. */
static void choose_words_at_edge(struct dice *dice, const struct standing *standing, uint32_t *address, uint32_t *count)
{
    uint32_t edge = SECTOR * (1 + below(dice, standing->main_size / SECTOR));
    uint32_t before = WORD * below(dice, 4), after = WORD * below(dice, chance(dice, 80) ? 4 : 1600 / WORD);
    *address = edge - before;
    *count = before + after;
}

static size_t program_core(struct dice *dice, const struct standing *standing, uint8_t *core)
{
    uint32_t address = choose_address(dice, standing);
    uint32_t most = CORE_LARGEST - 5;
    uint32_t count = choose_count(dice, standing, address, WORD * (1 + below(dice, chance(dice, 80) ? 8 : 1712 / WORD)));
    if (chance(dice, 20))
        choose_words_at_edge(dice, standing, &address, &count);
    if (chance(dice, 8))
        count = chance(dice, 70) ? 1 + below(dice, most) : WORD / 2 * (1 + below(dice, 8));
    if (chance(dice, 3))
        count = most;
    if (count < 1 || count > most)
        count = 16;
    if (IS_AM13E230X && chance(dice, 6)) /* after the settings' image */
        address = SETTINGS_START + IMAGE_END + WORD * below(dice, 8);
    if (chance(dice, 3)) /* up to the window's end, or a byte over it */
        address = WINDOW_START + WINDOW_SPAN - count + below(dice, 2);
    write32(core + 1, address);
    memset(core + 5, chance(dice, 50) ? 0x00 : 0xFF, count);
    if (chance(dice, 80))
        noise(dice, core + 5, count);
    return 5 + count;
}

static size_t read_back_core(struct dice *dice, const struct standing *standing, uint8_t *core)
{
    static const uint32_t limits[] = {0, 1, 1719, 1720, 1720, 1721, 0xFFFFFFFF, 0x10000, 0x80000001};
    uint32_t address = choose_address(dice, standing);
    uint32_t count = choose_count(dice, standing, address, 1 + below(dice, 64));
    write32(core + 1, address);
    write32(core + 5, chance(dice, 20) ? ONE_OF(dice, limits) : count);
    return 9;
}

static size_t verify_core(struct dice *dice, const struct standing *standing, uint8_t *core)
{
    static const uint32_t limits[] = {0,     8,     1023,         1024,             VERIFY_LEAST - 1, VERIFY_LEAST,
                                      65535, 65536, 65537,        VERIFY_LEAST + 1, MAIN_LARGEST,     MAIN_LARGEST + 1,
                                      0x10400,      0x80000400,   0xFFFFFFFF};
    static const uint32_t starts[] = {0,            0,         SETTINGS_START, SETTINGS_START - SECTOR,
                                      WINDOW_START, 0x20000000, SETTINGS_START + SECTOR};
    uint32_t address = chance(dice, 40) ? ONE_OF(dice, starts) : choose_address(dice, standing);
    uint32_t count = choose_count(dice, standing, address, VERIFY_LEAST + below(dice, 1024));
    if (chance(dice, 30))
        count = ONE_OF(dice, limits);
    if (chance(dice, 5)) { /* all of MAIN */
        address = 0;
        count = standing->main_size;
    }
    write32(core + 1, address);
    write32(core + 5, count);
    return 9;
}

static size_t factory_reset_core(struct dice *dice, const struct standing *standing, uint8_t *core)
{
    if (chance(dice, 35))
        return 1;
    memcpy(core + 1, standing->fields + RESET_PASSWORD_AT, 16);
    if (chance(dice, 30))
        core[1 + below(dice, 16)] ^= (uint8_t)(1u << below(dice, 8));
    return 17;
}

static size_t rate_core(struct dice *dice, uint8_t *core)
{
    static const uint8_t outside[] = {0, 10, 11, 12, 13, 14, 15, 16, 16, 16, 17, 0x80, 0xFF};
    core[1] = chance(dice, 40) ? ONE_OF(dice, outside) : (uint8_t)(1 + below(dice, 9));
    return 2;
}

static uint8_t choose_command(struct dice *dice, const struct standing *standing)
{
    static const uint8_t erasing[] = {0x15, 0x30, 0x40};
    static const uint8_t ranged[] = {0x20, 0x20, 0x24, 0x29, 0x26, 0x23};
    if (chance(dice, 3))
        return (uint8_t)roll(dice); /* mostly an unknown code */
    if (!standing->unlocked && chance(dice, 45))
        return 0x21;
    if (chance(dice, 6))
        return ONE_OF(dice, erasing);
    if (standing->unlocked && chance(dice, 75))
        return ONE_OF(dice, ranged);
    return ONE_OF(dice, command_codes);
}

static size_t choose_core(struct dice *dice, const struct standing *standing, uint8_t *core)
{
    core[0] = choose_command(dice, standing);
    switch (core[0]) {
    case 0x21:
        return unlock_core(dice, standing, core);
    case 0x23:
        return range_erase_core(dice, standing, core);
    case 0x20:
    case 0x24:
        return program_core(dice, standing, core);
    case 0x29:
        return read_back_core(dice, standing, core);
    case 0x26:
        return verify_core(dice, standing, core);
    case 0x30:
        return factory_reset_core(dice, standing, core);
    case 0x52:
        return rate_core(dice, core);
    default:
        return 1;
    }
}

/* Another L for the same command, with a frame that fits. */
static size_t choose_other_length(struct dice *dice, size_t length, uint8_t *core)
{
    static const uint16_t limits[] = {1, 2, 5, 6, 8, 10, 16, 18, 32, 34, CORE_LARGEST};
    size_t other = ONE_OF(dice, limits);
    if (chance(dice, 50))
        other = length > 1 && chance(dice, 50) ? length - 1 : length + 1;
    if (other > CORE_LARGEST)
        other = CORE_LARGEST;
    if (other > length)
        noise(dice, core + length, other - length);
    return other;
}

/* ---- Damage ---- */

/* A frame whose L is at a limit, or far over it, and whose checksum is right for that L. */
static size_t frame_at_limit(struct dice *dice, uint8_t *packet)
{
    static const uint16_t lengths[] = {1720, 1721, 1722, 1722, 1723, 1728, 2048, 32768, 65535};
    size_t length = ONE_OF(dice, lengths);
    noise(dice, packet + 3, length);
    packet[3] = chance(dice, 60) ? ONE_OF(dice, command_codes) : packet[3];
    return frame(packet + 3, length, packet);
}

/* One fault put into a packet of at least 8 bytes, which may grow by a few. */
static size_t damage(struct dice *dice, uint8_t *packet, size_t size)
{
    switch (below(dice, 11)) {
    case 0:
        packet[0] = chance(dice, 50) ? 0x08 : (uint8_t)roll(dice);
        return size;
    case 1:
        return 1 + below(dice, 3);
    case 2:
        return below(dice, (uint32_t)size);
    case 3:
        noise(dice, packet + size, 4);
        return size + 1 + below(dice, 4);
    case 4:
        write16(packet + 1, 0);
        return chance(dice, 50) ? 7 : size;
    case 5:
        write16(packet + 1, chance(dice, 70) ? 1722 : 1723 + below(dice, 63813));
        return size;
    case 6:
        write16(packet + 1, read16(packet + 1) + (chance(dice, 50) ? 1 : 65535));
        return size;
    case 7:
        packet[size - 1 - below(dice, 4)] ^= (uint8_t)(1u << below(dice, 8));
        return size;
    case 8: /* as if the checksum were inverted at the end */
        write32(packet + size - 4, ~read32(packet + size - 4));
        return size;
    case 9:
        packet[3 + below(dice, (uint32_t)size - 7)] ^= (uint8_t)(1u << below(dice, 8));
        return size;
    default: /* length most significant byte first */
        packet[2] = packet[1];
        packet[1] = 0;
        return size;
    }
}

static size_t choose_noise(struct dice *dice, uint8_t *packet)
{
    size_t size = 1 + below(dice, chance(dice, 40) ? 3 : 64);
    noise(dice, packet, size);
    if (chance(dice, 50))
        packet[0] = 0x80;
    return size;
}

size_t choose_packet(struct dice *dice, const struct standing *standing, uint8_t *packet)
{
    uint8_t core[CORE_LARGEST];
    if (chance(dice, 3))
        return 0;
    if (chance(dice, 1))
        return choose_noise(dice, packet);
    if (chance(dice, 1))
        return frame_at_limit(dice, packet);
    core[0] = 0x12;
    if (standing->phase == PHASE_DETECT && chance(dice, 55))
        return frame(core, 1, packet);
    if (standing->phase == PHASE_DETECT && chance(dice, 20))
        return damage(dice, packet, frame(core, 1, packet));
    size_t length = choose_core(dice, standing, core);
    if (chance(dice, 6))
        length = choose_other_length(dice, length, core);
    size_t size = frame(core, length, packet);
    if (chance(dice, 6))
        size = damage(dice, packet, size);
    if (size >= 8 && chance(dice, 2))
        size = damage(dice, packet, size);
    return size;
}
