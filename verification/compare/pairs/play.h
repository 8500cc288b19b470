#ifndef PLAY_H
#define PLAY_H

#include <stdbool.h>
#include <stdint.h>

/*
 * T-12, the question over restarts, by playing: two boards that are as in demand 3, sessions one after the other, cuts of
 * the power between two calls and within the strike's erase. False where they are told apart though the theorem says
 * that they are not, and then says by which move. Boards and moves that the theorem leaves out are played too; a long
 * run must see them told apart.
 */
bool play_agrees(uint64_t seed);

#endif
