#ifndef PACKETS_H
#define PACKETS_H

#include "dice.h"

/* Random packets: right commands, commands at the limits of each rule, and damaged ones. */

/* How a session stands, for choices that hit its limits. */
struct standing {
    uint8_t phase, wrong_count;
    bool unlocked;
    uint32_t sleep, idle, main_size;
    const uint8_t *fields;
};

/* Writes a packet of at most PACKET_LARGEST bytes and returns its size. */
enum { PACKET_LARGEST = 65536 + 16 };
size_t choose_packet(struct dice *dice, const struct standing *standing, uint8_t *packet);

#endif
