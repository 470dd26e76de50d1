/*
 * gap.c - how many ticks a peer's STmin keeps the node's next consecutive frame back.
 */
#include "mutants.h"

/* The mutants change what the rule, gap_of below, has found. */
static int mistaken_ticks(uint8_t stmin, int gap)
{
    bool ticks = stmin > 0 && stmin <= STMIN_TICKS_MAX;
    if (mistake(W2a1) || mistake(W2a6) || mistake(W2g7) || (mistake(W2a2) && ticks)
        || (mistake(W2a3) && stmin == STMIN_TICKS_MAX) || (mistake(W2a4) && stmin == 1))
        return gap - 1;
    if (mistake(W2a5))
        return gap + 1;
    return gap;
}

static int mistaken_tenths(uint8_t stmin, int gap)
{
    if ((mistake(W2b3) && stmin == 0xF0) || (mistake(W2b4) && stmin == 0xFA))
        return 2;
    if ((mistake(W2b5) && stmin == 0xF1) || (mistake(W2b6) && stmin == 0xF9))
        return GAP_MAX;
    return in_tenths(stmin) ? rule(rule(gap, W2b1, 1), W2b2, 3) : gap;
}

static int mistaken_reserved(uint8_t stmin, int gap)
{
    bool low = stmin > STMIN_TICKS_MAX && stmin < 0xF1, high = stmin > 0xF9;
    if ((low && (mistake(W2c1) || mistake(W2c4))) || (high && (mistake(W2c1) || mistake(W2c5))))
        return GAP_MAX - 1;
    return low || high ? rule(rule(gap, W2c2, GAP_MAX + 1), W2c3, (uint8_t)(stmin + 1)) : gap;
}

static int mistaken_gap(uint8_t stmin, int gap)
{
    if (gap == 0)
        return rule(0, W2d1, 1);
    gap = mistaken_reserved(stmin, mistaken_tenths(stmin, mistaken_ticks(stmin, gap)));
    return rule(gap, W2g4, gap % GAP_MAX);
}

/* What an STmin means in paper 01. A reserved one asks for the longest that there is. */
static int ticks_of(uint8_t stmin)
{
    if (stmin <= STMIN_TICKS_MAX)
        return stmin;
    return in_tenths(stmin) ? rule(1, 20d, 0) : rule(STMIN_TICKS_MAX, 20c, 0);
}

/*
 * Request W2: the first tick can fall right behind the hand-over, so that n ticks may be
 * just over n - 1 ms; one more makes up for it. Where no gap is asked for there is none.
 */
int gap_of(uint8_t stmin)
{
    int ticks = ticks_of(stmin);
    int gap = ticks > 0 ? ticks + 1 : 0;
    return mutant == NO_MUTANT ? gap : mistaken_gap(stmin, gap);
}
