#ifndef TURNS_H
#define TURNS_H

#include <stddef.h>

/*
 * Times things side by side. They take turns, so that a busy moment of the machine meets them all, and of each the best
 * turn counts.
 */

struct contender {
    void (*prepare)(void *subject, size_t calls); /* before each turn, and not timed; may be NULL */
    void (*run)(void *subject, size_t calls);
    void *subject;
    double best; /* nanoseconds a call */
};

/* How many calls a turn wants so that the clock does not matter, at most so many. */
size_t calls_in_a_turn(struct contender *contenders, size_t count, size_t most);

/* So many turns for each; `best` is carried on, and begins above all times. */
void take_turns(struct contender *contenders, size_t count, size_t calls, int turns);

#endif
