/*
 * settings_mistakes.h - what the mutants of request W3 do with a berth's settings where they govern something.
 *
 * Without a mutant they are always the berth's own, and set-up gives all ten the same.
 * It is all inline, so that a peer without mutants has nothing of it.
 */
#ifndef SETTINGS_MISTAKES_H
#define SETTINGS_MISTAKES_H

#include "mutants.h"
#include "node.h"

static inline const struct berth_settings *settings_of_next(const struct node *node, int berth)
{
    return &node->set[(berth + 1) % BERTHS];
}

/* What the berth's go carries. */
static inline struct berth_settings settings_of_go(const struct node *node, int berth)
{
    struct berth_settings own = node->set[berth], first = node->set[0];
    if (mistake(W3a1) || mistake(W3a3))
        own.block_size = first.block_size;
    if (mistake(W3a1) || mistake(W3a4))
        own.stmin = first.stmin;
    if (mistake(W3a2))
        own = *settings_of_next(node, berth);
    if (mistake(W3a5))
        own = node->set[node->served];
    if (mistake(W3a6))
        own = (struct berth_settings){ own.stmin, own.block_size };
    return own;
}

/* What tells when a block of the berth is full. */
static inline int block_size_of_blocks(const struct node *node, int berth)
{
    int own = node->set[berth].block_size, first = node->set[0].block_size;
    own = rule(rule(own, W3a7, first), W3a8, settings_of_next(node, berth)->block_size);
    return mistake(W3a9) && first == 0 ? 0 : own;
}

/* What the range of the frames taken reads. */
static inline int block_size_of_range(const struct node *node, int berth)
{
    int own = node->set[berth].block_size;
    return rule(rule(own, W3e5, node->set[0].block_size), W3e6, settings_of_next(node, berth)->block_size);
}

static inline bool stmin_untested(const struct node *node, int berth)
{
    enum receive_state state = node->rx[berth].state;
    bool idle = state == RX_IDLE && node->tx[berth].state == TX_IDLE, receives = state == OWES_GO || state == AWAITS;
    return (mistake(W3e1) && berth > 0) || (mistake(W3e2) && berth == BERTHS - 1) || (mistake(W3e3) && idle)
        || (mistake(W3e4) && !receives);
}

/* Whether the node is in order for a call of one berth: all of it, but for a mutant that sees one berth's settings. */
static inline bool in_order_for(const struct node *node, uint32_t berth, bool sees_own_only)
{
    if (!sees_own_only)
        return in_order(node);
    struct node seen = *node;
    for (uint32_t k = 0; k < BERTHS; k++)
        if (k != berth)
            seen.set[k].stmin = 0;
    return in_order(&seen);
}

/* The settings of a berth behind a set-up that was given these. */
static inline struct berth_settings filled_at_set_up(const struct node *before, int berth, struct berth_settings given)
{
    const struct berth_settings *old = &before->set[berth];
    if ((mistake(W3c1) && berth > 0) || (mistake(W3c2) && berth == BERTHS - 1))
        return (struct berth_settings){ 0, 0 };
    if (mistake(W3c3) && berth > 0)
        return *old;
    return (struct berth_settings){
        rule(given.block_size, W3c4, old->block_size), rule(given.stmin, W3c5, old->stmin),
    };
}

/* The mistake of a set-up that stores what it can before it refuses. */
static inline void settings_of_refused_set_up(struct node *node, uint32_t block_size, uint32_t stmin)
{
    for (int k = 0; k < BERTHS; k++)
        node->set[k] = (struct berth_settings){ (int)(block_size & 0xFF), (int)(stmin & 0xFF) };
}

#endif
