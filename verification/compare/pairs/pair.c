#include "pair.h"

#include "model/functions.h"

#include <string.h>

enum { ALERT_IS_RESET = 1, MESSAGE_ALERTED = 3, MOST_WRONG = 3 };

static uint64_t refusal_of(const struct board *board)
{
    return board->answer >> 56;
}

static size_t reply_size(const struct board *board)
{
    return (uint32_t)board->answer;
}

/* ---- A start ---- */

static void start_board(struct board *board, size_t main_size, struct dice *dice, uint32_t fuse, enum window window)
{
    noise(dice, board->record, RECORD_BYTES);
    if (window == WINDOW_ZEROS)
        memset(board->window, 0, WINDOW_BYTES);
    board->answer = product_functions.start(fuse, board->main, main_size, board->settings, SETTINGS_BYTES,
                                            board->window, WINDOW_BYTES, board->record, RECORD_BYTES);
}

void start_pair(struct pair *pair, struct dice *dice, uint32_t fuse, enum window window)
{
    start_board(&pair->one, pair->main_size, dice, fuse, window);
    start_board(&pair->other, pair->main_size, dice, fuse, window);
    pair->on = pair->one.answer == 0 && pair->other.answer == 0;
}

/* ---- A call ---- */

static void call_board(struct board *board, size_t main_size, struct dice *dice, uint32_t wait, const uint8_t *packet,
                       size_t size)
{
    size_t room = REPLY_LEAST + below(dice, PAIR_REPLY - REPLY_LEAST + 1);
    noise(dice, board->reply, PAIR_REPLY);
    board->answer = product_functions.call(board->record, RECORD_BYTES, board->main, main_size, board->settings,
                                           SETTINGS_BYTES, board->window, WINDOW_BYTES, wait, packet, size,
                                           board->reply, room);
}

void send_pair(struct pair *pair, struct dice *dice, uint32_t wait, const uint8_t *packet, size_t size)
{
    if (!pair->on)
        return;
    call_board(&pair->one, pair->main_size, dice, wait, packet, size);
    call_board(&pair->other, pair->main_size, dice, wait, packet, size);
}

/* ---- A cut of the power ---- */

static bool board_is_struck(const struct board *board)
{
    return board->record[RECORD_FIELDS_AT + ALERT_AT] == ALERT_IS_RESET && board->record[COUNT_AT] == MOST_WRONG;
}

/* The last call was answered by the message of a strike. */
static bool call_struck(const struct board *board)
{
    return board_is_struck(board) && reply_size(board) == 10 && board->reply[4] == 0x3B &&
           board->reply[5] == MESSAGE_ALERTED;
}

/* Of the sectors that the whole erase has made blank, those that the power came too early for are as before. */
static void undo_sectors(struct board *board, const struct board *before, size_t main_size, uint32_t erased)
{
    for (size_t sector = 0; sector * SECTOR < main_size; sector++)
        if ((erased >> sector & 1) == 0)
            memcpy(board->main + sector * SECTOR, before->main + sector * SECTOR, SECTOR);
}

static void cut_board(struct board *board, const struct board *before, size_t main_size, uint32_t sectors,
                      enum order order)
{
    if (!call_struck(board))
        return;
    if (order == MAIN_FIRST_THEN_SETTINGS) {
        undo_sectors(board, before, main_size, sectors);
        memcpy(board->settings, before->settings, SETTINGS_BYTES);
    } else {
        undo_sectors(board, before, main_size, 0);
    }
}

bool cut_pair(struct pair *pair, struct dice *dice, uint32_t wait, const uint8_t *packet, size_t size, uint32_t sectors,
              enum order order)
{
    struct pair before = *pair;
    if (!pair->on)
        return false;
    send_pair(pair, dice, wait, packet, size);
    bool struck = call_struck(&pair->one);
    cut_board(&pair->one, &before.one, pair->main_size, sectors, order);
    cut_board(&pair->other, &before.other, pair->main_size, sectors, order);
    pair->on = false;
    return struck;
}

bool is_struck(const struct pair *pair)
{
    return pair->on && board_is_struck(&pair->one);
}

/* ---- What is compared ---- */

bool starts_alike(const struct pair *pair)
{
    return pair->one.answer == pair->other.answer &&
           (!pair->on || memcmp(pair->one.record, pair->other.record, RECORD_FIELDS_AT) == 0);
}

bool calls_alike(const struct pair *pair)
{
    return pair->one.answer == pair->other.answer && refusal_of(&pair->one) == 0 &&
           memcmp(pair->one.reply, pair->other.reply, reply_size(&pair->one)) == 0 &&
           memcmp(pair->one.record, pair->other.record, RECORD_FIELDS_AT) == 0;
}

bool holds_alike(const struct pair *pair)
{
    return memcmp(pair->one.main, pair->other.main, pair->main_size) == 0 &&
           memcmp(pair->one.settings, pair->other.settings, SETTINGS_BYTES) == 0 &&
           memcmp(pair->one.window, pair->other.window, WINDOW_BYTES) == 0;
}
