/* A whole session with a board of the AM13E230x, of 4,096 blank bytes and blank settings: what is sent, and the replies. */

#include "bhorelmu.h"

#include <stdio.h>
#include <string.h>

struct board {
    uint8_t main_flash[4096];
    uint8_t settings[BHORELMU_AM13E230X_SETTINGS_SIZE];
    uint8_t record[BHORELMU_AM13E230X_RECORD_SIZE];
};

static const struct { const char *name; size_t size; uint8_t packet[40]; } sent[] = {
    {"Connect", 8, {0x80, 0x01, 0x00, 0x12, 0x3A, 0x61, 0x44, 0xDE}},
    {"Info", 8, {0x80, 0x01, 0x00, 0x19, 0xB2, 0xB8, 0x96, 0x49}},
    {"Unlock", 40, {0x80, 0x21, 0x00, 0x21, 0xFF, 0xFF, 0xFF, 0xFF, 0xFF, 0xFF, 0xFF, 0xFF, 0xFF, 0xFF,
                    0xFF, 0xFF, 0xFF, 0xFF, 0xFF, 0xFF, 0xFF, 0xFF, 0xFF, 0xFF, 0xFF, 0xFF, 0xFF, 0xFF,
                    0xFF, 0xFF, 0xFF, 0xFF, 0xFF, 0xFF, 0xFF, 0xFF, 0x02, 0xAA, 0xF0, 0x3D}},
    {"Change rate", 9, {0x80, 0x02, 0x00, 0x52, 0x10, 0xB2, 0xC2, 0x1C, 0x2B}},
    {"Mass erase", 8, {0x80, 0x01, 0x00, 0x15, 0x99, 0xF4, 0x20, 0x40}},
    {"Start", 8, {0x80, 0x01, 0x00, 0x40, 0xE2, 0x51, 0x21, 0x5B}},
};

static int start(struct board *board)
{
    memset(board->main_flash, 0xFF, sizeof board->main_flash);
    memset(board->settings, 0xFF, sizeof board->settings);
    uint64_t answer = bhorelmu_am13e230x_start(0, board->main_flash, sizeof board->main_flash, board->settings,
                                               sizeof board->settings, board->record, sizeof board->record);
    if (bhorelmu_refusal(answer) != 0)
        printf("start: refusal %u, entry %u\n", bhorelmu_refusal(answer), (unsigned)bhorelmu_entry(answer));
    return bhorelmu_refusal(answer) == 0;
}

static void ask(struct board *board, const char *name, const uint8_t *packet, size_t size)
{
    uint8_t reply[BHORELMU_REPLY_SIZE];
    uint64_t answer = bhorelmu_am13e230x_call(board->record, sizeof board->record, board->main_flash,
                                              sizeof board->main_flash, board->settings, sizeof board->settings, 0, packet,
                                              size, reply, sizeof reply);
    printf("%s%s:", bhorelmu_burns(answer) ? "burn the fuse, then " : "", name);
    if (bhorelmu_refusal(answer) != 0)
        printf(" refusal %u", bhorelmu_refusal(answer));
    for (uint32_t i = 0; i < bhorelmu_length(answer); i++)
        printf(" %02X", reply[i]);
    printf(", phase %u\n", board->record[BHORELMU_RECORD_PHASE]);
}

int main(void)
{
    static struct board board;
    if (!start(&board))
        return 1;
    for (size_t i = 0; i < sizeof sent / sizeof sent[0]; i++)
        ask(&board, sent[i].name, sent[i].packet, sent[i].size);
    printf("%u bits a second\n", (unsigned)bhorelmu_am13e230x_rate(board.record[BHORELMU_RECORD_RATE_ID]));
    return 0;
}
