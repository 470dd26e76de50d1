/*
 * tick_mistakes.h - what the mutants of request W13 do in a tick, apart from its rules; some of W1 ask has_code too.
 *
 * Without a mutant nothing stands still, nothing is left out and nothing is changed.
 * It is all inline, so that a peer without mutants has nothing of it.
 */
#ifndef TICK_MISTAKES_H
#define TICK_MISTAKES_H

#include "mutants.h"
#include "node.h"

/* A consecutive frame due, with a gap before it that is over. */
static inline bool behind_a_gap(const struct send_side *tx)
{
    return tx->state == CONSECUTIVE && tx->gap > 0 && tx->gap_left == 0;
}

/* Whether a side that is not idle, or a whole berth, misses the tick. */
static inline bool receive_stands_still(const struct receive_side *rx)
{
    return (mistake(W13a2) && rx->state == AWAITS && rx->timer == TIMER_END - 1)
        || (mistake(W13a3) && rx->state == OWES_OVERFLOW);
}

static inline bool send_stands_still(const struct receive_side *rx, const struct send_side *tx, int receive_code)
{
    return (mistake(W13a1) && tx->gap_left > 0 && rx->state == RX_IDLE)
        || (mistake(W13a4) && tx->state == SINGLE_DUE) || (mistake(W13a5) && behind_a_gap(tx))
        || (mistake(W13a6) && tx->gap_left > tx->gap) || (mistake(W13a7) && rx->state != RX_IDLE)
        || (mistake(W13a8) && receive_code != 0 && tx->timer == TIMER_END - 1);
}

/* The code where it is told before the timer's end too, else 0. */
static inline int told_early(int timer, int code)
{
    return mistake(W13b2) && timer == TIMER_END - 1 ? code : 0;
}

static inline bool berth_has_code(const struct tick_answer *answer, int berth)
{
    return answer->receive_code[berth] != 0 || answer->send_code[berth] != 0;
}

/* Whether the answer has a code so far. */
static inline bool has_code(const struct tick_answer *answer)
{
    for (int k = 0; k < BERTHS; k++)
        if (berth_has_code(answer, k))
            return true;
    return false;
}

static inline bool leaves_out(const struct node *node, const struct tick_answer *answer, int berth)
{
    return (mistake(W13a9) && berth == node->served) || (mistake(W13a10) && has_code(answer))
        || (mistake(W13f1) && berth > 0 && berth_has_code(answer, berth - 1));
}

/* What the codes of a berth do beside ending their sides. */
static inline void mistakes_at_codes(struct node *node, int berth, struct tick_answer *answer)
{
    struct receive_side *rx = &node->rx[berth];
    struct send_side *tx = &node->tx[berth];
    int *receive = &answer->receive_code[berth], *send = &answer->send_code[berth];
    if (mistake(W13b4) && *receive != 0 && tx->state == TX_IDLE && *send == 0)
        *send = *receive;
    if (mistake(W13b5) && berth_has_code(answer, berth)) {
        *rx = (struct receive_side){ .state = RX_IDLE, .last = rx->last };
        *tx = (struct send_side){ .state = TX_IDLE };
    }
    if (mistake(W13b6) && *receive != 0)
        *send = 0;
    if (mistake(W13d2) && *send != 0)
        rx->last = 0;
    if (mistake(W13d3) && berth_has_code(answer, berth))
        node->served = berth;
}

/* A node that starts afresh when all its sides have come free. */
static inline void mistake_when_free(struct node *node)
{
    bool idle = true;
    for (int k = 0; k < BERTHS; k++)
        idle = idle && node->rx[k].state == RX_IDLE && node->tx[k].state == TX_IDLE;
    for (int k = 0; k < BERTHS && idle && mistake(W13d5); k++)
        node->rx[k].last = 0;
}

#endif
