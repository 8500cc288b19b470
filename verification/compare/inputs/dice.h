#ifndef DICE_H
#define DICE_H

#include <stdbool.h>
#include <stddef.h>
#include <stdint.h>

/* Pseudo-random numbers (splitmix64): a seed gives the same numbers on every machine. */

struct dice {
    uint64_t state;
};

static inline uint64_t roll(struct dice *dice)
{
    uint64_t z = dice->state += 0x9E3779B97F4A7C15u;
    z = (z ^ z >> 30) * 0xBF58476D1CE4E5B9u;
    z = (z ^ z >> 27) * 0x94D049BB133111EBu;
    return z ^ z >> 31;
}

static inline uint32_t below(struct dice *dice, uint32_t limit)
{
    return (uint32_t)((roll(dice) >> 32) * limit >> 32);
}

static inline bool chance(struct dice *dice, uint32_t percent)
{
    return below(dice, 100) < percent;
}

#define ONE_OF(dice, array) ((array)[below(dice, sizeof(array) / sizeof *(array))])

static inline void noise(struct dice *dice, uint8_t *bytes, size_t count)
{
    uint64_t word = 0;
    for (size_t i = 0; i < count; i++) {
        word = i % 8 == 0 ? roll(dice) : word >> 8;
        bytes[i] = (uint8_t)word;
    }
}

#endif
