/*
 * order.c - whether a node keeps the ranges of "What each side of a berth remembers".
 *
 * No range stands here that the paper does not name (but for the mutants'): a
 * node that no run reaches may still be in order, and then every call must
 * serve it.
 */
#include "mutants.h"
#include "order.h"
#include "party_mistakes.h"
#include "settings_mistakes.h"

#define BREAKS(name, test)                                \
    do {                                                  \
        if ((test) && mutant != range_dropped(name))      \
            return name;                                  \
    } while (0)

bool in_tenths(uint32_t stmin)
{
    return stmin >= 0xF1 && stmin <= 0xF9;
}

bool stmin_allowed(uint32_t stmin)
{
    return stmin <= (uint32_t)rule(STMIN_TICKS_MAX, W2f3, GAP_MAX) || in_tenths(stmin);
}

/* What the node has beside its berths. */
static enum fault own_fault(const struct node *node)
{
    BREAKS(area_small, node->area < AREA_MIN);
    BREAKS(area_large, node->area > AREA_MAX);
    BREAKS(served_large, node->served >= BERTHS);
    return no_fault;
}

/* A block size out of its range does not fit the byte that loads it. */
static enum fault settings_fault(const struct node *node, int berth)
{
    BREAKS(stmin_reserved, !stmin_allowed((uint32_t)node->set[berth].stmin) && !stmin_untested(node, berth));
    return no_fault;
}

static enum fault receive_fault(const struct node *node, int berth)
{
    const struct receive_side *rx = &node->rx[berth];
    int block_size = block_size_of_range(node, berth);
    BREAKS(last_large, rx->last > node->area);
    if (rx->state == RX_IDLE)
        return no_fault;
    BREAKS(receive_timer_large, rx->timer >= TIMER_END);
    if (rx->state == OWES_OVERFLOW)
        return no_fault;
    BREAKS(last_while_receiving, rx->last != 0);
    BREAKS(total_small, rx->total < AREA_MIN);
    BREAKS(total_large, rx->total > node->area);
    BREAKS(got_small, rx->got < FIRST_BYTES);
    BREAKS(got_large, rx->got >= rx->total);
    BREAKS(receive_sn_large, rx->sn > SN_MAX);
    BREAKS(taken_large, block_size != 0 && rx->taken >= block_size);
    BREAKS(taken_uncounted, block_size == 0 && rx->taken != 0);
    /* The mistakes of corner 4 are ranges that the paper does not name. */
    BREAKS(taken_large, mistake(04a) && rx->state == OWES_GO && rx->taken != 0);
    BREAKS(got_large, mistake(04b) && (rx->got - FIRST_BYTES) % 7 != 0);
    BREAKS(receive_sn_large, mistake(04c) && rx->sn != (1 + (rx->got - FIRST_BYTES) / 7) % 16);
    return no_fault;
}

/* The longest gap that a peer may have, but for the mutants that have another one in one of the states. */
static int longest_gap(enum send_state state)
{
    if (state == AWAITS_FLOW)
        return rule(rule(GAP_MAX, W2e1, GAP_MAX - 1), W2e4, GAP_MAX + 1);
    return rule(rule(GAP_MAX, W2e2, GAP_MAX - 1), W2e5, GAP_MAX + 1);
}

/* What awaits flow control and consecutive carry. */
static enum fault transfer_fault(const struct node *node, const struct send_side *tx)
{
    int most_left = rule(rule(GAP_MAX, W2e3, GAP_MAX - 1), W2e6, GAP_MAX + 1);
    BREAKS(length_small, tx->length < AREA_MIN);
    BREAKS(length_large, tx->length > node->area);
    BREAKS(position_small, tx->position < FIRST_BYTES);
    BREAKS(position_large, tx->position >= tx->length);
    BREAKS(send_sn_large, tx->sn > SN_MAX);
    BREAKS(sent_while_awaiting, tx->state == AWAITS_FLOW && tx->sent != 0);
    BREAKS(sent_large, tx->block_size != 0 && tx->sent >= tx->block_size && tx->state == CONSECUTIVE);
    BREAKS(sent_uncounted, tx->block_size == 0 && tx->sent != 0 && tx->state == CONSECUTIVE);
    BREAKS(gap_large, tx->gap > longest_gap(tx->state));
    BREAKS(gap_left_large, tx->gap_left > most_left && tx->state == CONSECUTIVE);
    BREAKS(gap_left_while_awaiting, tx->state == AWAITS_FLOW && tx->gap_left != 0);
    BREAKS(timer_in_gap, tx->gap_left > 0 && tx->timer > 0 && tx->state == CONSECUTIVE);
    /* No STmin asks for a gap of 1, but the range has it. */
    BREAKS(gap_large, mistake(W2e7) && tx->gap == 1);
    BREAKS(gap_left_large, mistake(04d) && tx->gap_left > tx->gap);
    return no_fault;
}

static enum fault send_fault(const struct node *node, const struct send_side *tx)
{
    if (tx->state == TX_IDLE)
        return mistake(W6j5) && tx->party > LAPTOP ? party_large : no_fault;
    BREAKS(send_timer_large, tx->timer >= TIMER_END);
    BREAKS(party_large, party_breaks(node, tx, tx->party > LAPTOP));
    switch (tx->state) {
    case SINGLE_DUE:
        BREAKS(single_small, tx->length < 1);
        BREAKS(single_large, tx->length > SINGLE_MAX);
        return no_fault;
    case FIRST_DUE:
        BREAKS(first_small, tx->length < AREA_MIN);
        BREAKS(first_large, tx->length > node->area);
        return no_fault;
    default:
        return transfer_fault(node, tx);
    }
}

enum fault fault_of(const struct node *node)
{
    enum fault fault = own_fault(node);
    for (int k = 0; k < BERTHS && fault == no_fault; k++) {
        fault = settings_fault(node, k);
        if (fault == no_fault)
            fault = receive_fault(node, k);
        if (fault == no_fault)
            fault = send_fault(node, &node->tx[k]);
    }
    return fault;
}

bool in_order(const struct node *node)
{
    return fault_of(node) == no_fault;
}
