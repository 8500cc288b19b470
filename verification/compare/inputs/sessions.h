#ifndef SESSIONS_H
#define SESSIONS_H

#include "dice.h"
#include "packets.h"
#include "script.h"
#include "sides.h"

/* How the session of a record stands; where its MAIN size cannot be, it is the one that is given. */
struct standing read_standing(uint32_t main_size, const uint8_t *record);

/* Random sessions: the next step, from how the model's areas stand. */
struct step choose_step(struct dice *dice, uint32_t main_size, const struct side *side);

#endif
