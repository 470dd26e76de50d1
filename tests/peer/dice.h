/*
 * dice.h - small repeatable random numbers: the same seed gives the same stream everywhere.
 */
#ifndef DICE_H
#define DICE_H

#include <stdbool.h>
#include <stdint.h>

struct dice {
    uint64_t state;
};

uint64_t roll_bits(struct dice *dice);
int roll(struct dice *dice, int sides);                 /* 0 to sides - 1 */
int between(struct dice *dice, int low, int high);      /* both included; low if none */
bool chance(struct dice *dice, int percent);

#endif
