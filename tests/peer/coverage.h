/*
 * coverage.h - counts which outcomes a run has seen, and in which state.
 *
 * It watches from outside, by the world before a call and the answer, so that the
 * rules need no word about it.
 */
#ifndef COVERAGE_H
#define COVERAGE_H

#include <stdio.h>

#include "world.h"

/* The world before the call (its stores are not looked at) and the one after it. */
void cover(const struct world *before, const struct world *world, const struct call *call,
           const struct answer *answer);
void cover_short(void);
void cover_cards(void);

/*
 * One line for each outcome and state: count, "wanted" or "impossible" or
 * "elsewhere" (only the other program can show it), side, outcome, state;
 * tabs between.
 */
void write_coverage(FILE *file, enum program program);

#endif
