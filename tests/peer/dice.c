/*
 * dice.c - small repeatable random numbers (the splitmix64 generator).
 */
#include "dice.h"

uint64_t roll_bits(struct dice *dice)
{
    uint64_t z = dice->state += 0x9E3779B97F4A7C15u;
    z = (z ^ z >> 30) * 0xBF58476D1CE4E5B9u;
    z = (z ^ z >> 27) * 0x94D049BB133111EBu;
    return z ^ z >> 31;
}

int roll(struct dice *dice, int sides)
{
    return (int)(roll_bits(dice) % (uint64_t)sides);
}

int between(struct dice *dice, int low, int high)
{
    return low >= high ? low : low + roll(dice, high - low + 1);
}

bool chance(struct dice *dice, int percent)
{
    return roll(dice, 100) < percent;
}
