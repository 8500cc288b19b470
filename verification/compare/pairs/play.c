#include "play.h"

#include "boards.h"
#include "coverage.h"
#include "packets.h"
#include "pair.h"
#include "sessions.h"

#include <stdio.h>
#include <string.h>

enum { ALERT_NOTHING, ALERT_RESET, ALERT_DISABLE };
enum { SCENES_A_PLAY = 8, READOUT_ON = 0xAABB, GUESS_WAIT = 2000, READ_SIZE = 1024 };

/* What is played: what the theorem covers, and then what it leaves out. */
enum kind {
    OPEN_BOARDS,    /* nothing protected; a password only after the session in which the alert struck */
    ADVISED_BOARDS, /* settings protected, or another alert than reset; no password ever */
    ANY_BOARDS,     /* up to the start after a strike; no password */
    PASSWORD_SENT,  /* the one board's password in the session in which the alert struck */
    SECTOR_KEPT,    /* a protected sector, and settings that are not protected */
    OLD_WINDOW,     /* the window as it was at each start */
    SETTINGS_BEFORE_MAIN /* the power cuts a strike's erase that began with the settings */
};

struct play {
    uint64_t seed;
    enum kind kind;
    struct dice dice;
    struct pair pair;
    uint8_t passwords[2][32];
    bool over;  /* the session in which the alert first struck has ended */
    bool apart; /* the boards were told apart */
    bool cut;   /* a strike's erase was cut */
    unsigned moves;
};

/* ---- The boards ---- */

static void choose_pair_protection(struct play *play, uint8_t *fields)
{
    bool left_out = play->kind >= PASSWORD_SENT;
    bool opened = play->kind == OPEN_BOARDS || (left_out && play->kind != SECTOR_KEPT);
    if (left_out)
        fields[ALERT_AT] = ALERT_RESET;
    if (opened || play->kind == SECTOR_KEPT)
        fields[SETTINGS_PROTECTED_AT] = 0;
    if (opened) /* bits beyond MAIN are free */
        for (size_t sector = 0; sector < play->pair.main_size / SECTOR; sector++)
            fields[PROTECTION_AT + sector / 8] &= (uint8_t) ~(1u << sector % 8);
    if (play->kind == SECTOR_KEPT)
        fields[PROTECTION_AT] |= 1;
    if (play->kind == ADVISED_BOARDS && fields[ALERT_AT] == ALERT_RESET)
        fields[SETTINGS_PROTECTED_AT] = 1;
}

/*
 * The settings agree but in the two passwords, in form and in name; of MAIN the version's bytes alone need agree, four
 * or eight, of the window none.
 */
static void choose_pair(struct play *play)
{
    uint8_t fields[FIELDS_BYTES];
    struct pair *pair = &play->pair;
    pair->main_size = SECTOR * (1 + below(&play->dice, PAIR_SECTORS));
    choose_contents(&play->dice, (uint32_t)pair->main_size, fields);
    choose_pair_protection(play, fields);
    noise(&play->dice, pair->one.main, PAIR_MAIN);
    noise(&play->dice, pair->other.main, PAIR_MAIN);
    noise(&play->dice, pair->one.window, WINDOW_BYTES);
    noise(&play->dice, pair->other.window, WINDOW_BYTES);
    uint32_t pointer = read32(fields + POINTER_AT);
    if (pointer <= pair->main_size - VERSION_BYTES)
        memcpy(pair->other.main + pointer, pair->one.main + pointer, VERSION_BYTES);
    make_image(fields, pair->one.settings);
    memcpy(play->passwords[0], fields + PASSWORD_AT, 32);
    noise(&play->dice, fields + PASSWORD_AT, RESET_MODE_AT - PASSWORD_AT);
    choose_form(&play->dice, fields);
    make_image(fields, pair->other.settings);
    memcpy(play->passwords[1], fields + PASSWORD_AT, 32);
    pair->on = false;
}

/* ---- What may be sent ---- */

static bool carries(const uint8_t *packet, size_t size, const uint8_t *password)
{
    return size == 40 && packet[0] == 0x80 && read16(packet + 1) == 33 && packet[3] == 0x21 &&
           memcmp(packet + 4, password, 32) == 0 && read32(packet + 36) == crc(packet + 3, 33);
}

static bool may_send(const struct play *play, const uint8_t *packet, size_t size)
{
    bool with = carries(packet, size, play->passwords[0]) || carries(packet, size, play->passwords[1]);
    return !with || (play->kind == OPEN_BOARDS && play->over) || play->kind == PASSWORD_SENT;
}

/* ---- Moves ---- */

/* The theorem covers this kind of play, at this point of it. */
static bool is_covered(const struct play *play)
{
    return play->kind == OPEN_BOARDS || play->kind == ADVISED_BOARDS || (play->kind == ANY_BOARDS && !play->over);
}

/* What a play has shown counts where the theorem covers it. */
static void note(const struct play *play, int point)
{
    if (is_covered(play))
        seen(point);
}

static void print_move(const struct play *play, const char *move, size_t size)
{
    if (play->apart)
        printf("difference: seed %llu, two boards are told apart by move %u of their play: %s, %zu bytes\n",
               (unsigned long long)play->seed, play->moves, move, size);
}

/* Keeps whether what was shown was alike, and says so where it had to be. */
static void judge(struct play *play, bool alike, const char *move, size_t size)
{
    play->moves++;
    play->apart = !alike || (play->kind == OPEN_BOARDS && play->over && !holds_alike(&play->pair));
    bool locked = play->kind == ADVISED_BOARDS || (play->kind == ANY_BOARDS && !play->over);
    if (locked && play->pair.on && play->pair.one.record[LOCK_AT] != 0)
        play->apart = true;
    if (is_covered(play))
        print_move(play, move, size);
}

static void end_session(struct play *play)
{
    play->over = play->over || is_struck(&play->pair);
}

static void start(struct play *play, uint32_t fuse)
{
    if (play->pair.on && play->pair.one.record[PHASE_AT] == PHASE_COMMAND)
        note(play, PAIR_CUT_BETWEEN);
    if (is_struck(&play->pair))
        note(play, play->kind == ADVISED_BOARDS ? PAIR_ADVISED_STRUCK : PAIR_STRUCK);
    end_session(play);
    start_pair(&play->pair, &play->dice, fuse, play->kind == OLD_WINDOW ? WINDOW_KEPT : WINDOW_ZEROS);
    judge(play, starts_alike(&play->pair), "start", 0);
    if (fuse != 0)
        note(play, PAIR_FUSE);
    else if (!play->pair.on)
        note(play, PAIR_RUBBISH);
    else if (play->cut)
        note(play, PAIR_AFTER_CUT);
}

static void observe_call(const struct play *play, const uint8_t *packet, size_t size)
{
    const struct board *one = &play->pair.one;
    bool told = carries(packet, size, play->passwords[0]) || carries(packet, size, play->passwords[1]);
    if (play->kind != OPEN_BOARDS || !play->over)
        return;
    if (told)
        seen(PAIR_OLD_PASSWORD);
    if (one->record[LOCK_AT] == 1)
        seen(PAIR_UNLOCKED);
    if ((uint32_t)one->answer > 10 && one->reply[4] == 0x30)
        seen(read32(packet + 4) == WINDOW_START ? PAIR_WINDOW_READ : PAIR_READ);
    if (is_struck(&play->pair))
        seen(PAIR_STRUCK_AGAIN);
}

static void send(struct play *play, uint32_t wait, const uint8_t *packet, size_t size)
{
    if (!play->pair.on || play->apart || !may_send(play, packet, size))
        return;
    send_pair(&play->pair, &play->dice, wait, packet, size);
    judge(play, calls_alike(&play->pair), "call", size);
    observe_call(play, packet, size);
}

static void send_core(struct play *play, uint32_t wait, const uint8_t *core, size_t length)
{
    uint8_t packet[CORE_LARGEST + 7];
    size_t size = frame(core, length, packet);
    send(play, wait, packet, size);
}

static void unlock_with(struct play *play, const uint8_t *password)
{
    uint8_t core[33] = {0x21};
    memcpy(core + 1, password, 32);
    send_core(play, GUESS_WAIT, core, 33);
}

static void connect(struct play *play)
{
    send_core(play, 0, (const uint8_t[]){0x12}, 1);
}

static void guess(struct play *play)
{
    uint8_t password[32];
    noise(&play->dice, password, 32);
    unlock_with(play, password);
}

/* A third guess, and the power goes within the strike's erase, if it strikes. */
static void guess_and_cut(struct play *play)
{
    uint8_t core[33] = {0x21}, packet[40];
    noise(&play->dice, core + 1, 32);
    size_t size = frame(core, 33, packet);
    uint32_t sectors = below(&play->dice, 1u << PAIR_SECTORS);
    end_session(play);
    bool struck = cut_pair(&play->pair, &play->dice, GUESS_WAIT, packet, size, sectors,
                           play->kind == SETTINGS_BEFORE_MAIN ? SETTINGS_FIRST_THEN_MAIN : MAIN_FIRST_THEN_SETTINGS);
    judge(play, true, "cut", size);
    if (struck)
        note(play, play->cut ? PAIR_CUT_AGAIN : PAIR_CUT_WITHIN);
    play->cut = play->cut || struck;
}

/* ---- Scenes: sessions, and what is done in them ---- */

static void guessing(struct play *play, int guesses)
{
    start(play, 0);
    connect(play);
    for (int i = 0; i < guesses; i++)
        guess(play);
}

static void guessing_cut(struct play *play)
{
    guessing(play, 2);
    guess_and_cut(play);
}

/* Whoever has unlocked writes settings with readout on, and starts anew. */
static void write_settings(struct play *play)
{
    uint8_t core[5 + IMAGE_END] = {0x30}, fields[FIELDS_BYTES], settings[SETTINGS_BYTES];
    if (play->pair.one.settings[0] != 0xFF)
        send_core(play, 0, core, 1); /* Factory reset: only what is blank can be programmed */
    choose_contents(&play->dice, (uint32_t)play->pair.main_size, fields);
    write16(fields + READOUT_AT, READOUT_ON);
    core[0] = 0x20;
    write32(core + 1, SETTINGS_START);
    make_image(fields, settings);
    if (chance(&play->dice, 10))
        settings[below(&play->dice, IMAGE_END)] ^= 1; /* rubbish, which the next start refuses */
    memcpy(core + 5, settings, IMAGE_END);
    send_core(play, 0, core, sizeof core);
    if (IS_AM13E230X && chance(&play->dice, 10)) { /* so it does something after the image */
        write32(core + 1, SETTINGS_START + IMAGE_END);
        send_core(play, 0, core, 5 + WORD);
        seen(PAIR_SECOND_HALF);
    }
    if (play->pair.on)
        start(play, 0);
}

/* A password that one of the boards had at first, and then the session's own, each where it may be sent. */
static void unlock(struct play *play)
{
    uint8_t own[32];
    memcpy(own, play->pair.one.record + RECORD_FIELDS_AT + PASSWORD_AT, 32);
    connect(play);
    if (chance(&play->dice, 20))
        unlock_with(play, play->passwords[below(&play->dice, 2)]);
    unlock_with(play, own);
}

static void read_back(struct play *play, uint32_t address)
{
    uint8_t core[9] = {0x29};
    write32(core + 1, address);
    write32(core + 5, READ_SIZE);
    send_core(play, 0, core, 9);
}

static void read_all(struct play *play)
{
    for (uint32_t at = 0; at < play->pair.main_size; at += READ_SIZE)
        read_back(play, at);
    read_back(play, WINDOW_START);
}

/* After a strike that erased the settings, flash has a blank board's password, and the session does not. */
static void guess_public(struct play *play)
{
    uint8_t password[32];
    memset(password, 0xFF, 32);
    unlock_with(play, password);
    read_all(play);
}

static void opening(struct play *play)
{
    start(play, 0);
    unlock(play);
    write_settings(play);
    unlock(play);
    read_all(play);
}

/* Packets of every kind, damaged ones too. */
static void anything(struct play *play)
{
    static uint8_t packet[PACKET_LARGEST];
    for (uint32_t calls = below(&play->dice, 16); calls > 0 && play->pair.on && !play->apart; calls--) {
        struct standing standing = read_standing((uint32_t)play->pair.main_size, play->pair.one.record);
        uint32_t wait = chance(&play->dice, 80) ? standing.sleep : below(&play->dice, 12000);
        size_t size = choose_packet(&play->dice, &standing, packet);
        send(play, wait, packet, size);
    }
}

static void play_scene(struct play *play)
{
    static const uint32_t set[] = {1, 256, 0xFFFFFFFF};
    switch (below(&play->dice, 8)) {
    case 0:
        start(play, ONE_OF(&play->dice, set));
        break;
    case 1:
        guessing(play, 1 + (int)below(&play->dice, 2));
        break;
    case 2:
        guessing(play, 3 + (int)below(&play->dice, 2));
        if (chance(&play->dice, 50))
            guess_public(play);
        break;
    case 3:
        guessing_cut(play);
        break;
    case 4:
    case 5:
        opening(play);
        break;
    default:
        start(play, 0);
        if (chance(&play->dice, 70))
            unlock(play);
    }
    anything(play);
}

/* What the theorem leaves out: the same boards, and one thing more. */
static void play_left_out(struct play *play)
{
    if (play->kind == SETTINGS_BEFORE_MAIN)
        guessing_cut(play);
    else
        guessing(play, 3);
    if (play->kind == PASSWORD_SENT)
        unlock_with(play, play->passwords[0]);
    else
        opening(play);
    static const int told[] = {PAIR_TOLD_PASSWORD, PAIR_TOLD_SECTOR, PAIR_TOLD_WINDOW, PAIR_TOLD_SETTINGS_FIRST};
    if (play->apart)
        seen(told[play->kind - PASSWORD_SENT]);
}

bool play_agrees(uint64_t seed)
{
    static struct play play;
    static const enum kind kinds[] = {OPEN_BOARDS, OPEN_BOARDS,   OPEN_BOARDS, OPEN_BOARDS, ADVISED_BOARDS,
                                      ANY_BOARDS,  PASSWORD_SENT, SECTOR_KEPT, OLD_WINDOW,  SETTINGS_BEFORE_MAIN};
    enum kind kind = kinds[seed % 10];
    if (kind == OLD_WINDOW && WINDOW_BYTES == 0)
        kind = OPEN_BOARDS;
    play = (struct play){.seed = seed, .kind = kind, .dice = {~seed}};
    choose_pair(&play);
    if (play.kind >= PASSWORD_SENT) {
        play_left_out(&play);
        return true;
    }
    for (int scene = 0; scene < SCENES_A_PLAY && !play.apart && is_covered(&play); scene++)
        play_scene(&play);
    return !(play.apart && is_covered(&play));
}
