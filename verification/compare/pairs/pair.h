#ifndef PAIR_H
#define PAIR_H

#include "dice.h"
#include "wire.h"

/*
 * Two boards through the same moves, each with a caller and areas of its own: a start, a call, or a call that the
 * power does not outlast. What the library shows of the one is compared with what it shows of the other.
 */

enum { PAIR_SECTORS = 4, PAIR_MAIN = PAIR_SECTORS * SECTOR, PAIR_REPLY = 2048 };
enum { PAIR_WINDOW = WINDOW_SPAN }; /* room, also where the part has none */

struct board {
    uint8_t main[PAIR_MAIN], settings[SETTINGS_BYTES], window[PAIR_WINDOW], record[RECORD_BYTES], reply[PAIR_REPLY];
    uint64_t answer;
};

struct pair {
    struct board one, other;
    size_t main_size;
    bool on; /* a session is on: the power is there, and the last start was not refused */
};

/* In which order the erase that the power cuts was done. */
enum order { MAIN_FIRST_THEN_SETTINGS, SETTINGS_FIRST_THEN_MAIN };

/*
 * The boards are started anew, from the images as they are. The window is handed over as zeros, or as it was; the record
 * areas hold noise beforehand.
 */
enum window { WINDOW_ZEROS, WINDOW_KEPT };
void start_pair(struct pair *pair, struct dice *dice, uint32_t fuse, enum window window);

/* A packet is sent to both, after the same wait. No call is made while no session is on. */
void send_pair(struct pair *pair, struct dice *dice, uint32_t wait, const uint8_t *packet, size_t size);

/*
 * The same, and the power goes before the reply. Where the call strikes, it goes within the erase: with MAIN first
 * these sectors are erased, and the settings are as before; with the settings first they are, and MAIN is as before.
 * Tells whether the call struck.
 */
bool cut_pair(struct pair *pair, struct dice *dice, uint32_t wait, const uint8_t *packet, size_t size, uint32_t sectors,
              enum order order);

/* The alert is reset, and three wrong passwords have been counted in the session that is on. */
bool is_struck(const struct pair *pair);

/* The last start showed the same of both; so did the last call, and the sessions stand alike; both hold the same. */
bool starts_alike(const struct pair *pair);
bool calls_alike(const struct pair *pair);
bool holds_alike(const struct pair *pair);

#endif
