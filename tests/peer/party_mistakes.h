/*
 * party_mistakes.h - what the mutants of request W6 do in a send, in the order and in the round, apart from the rules.
 *
 * They test a send and make it, in the request's words, each with one mistake.
 * It is all inline, so that a peer without mutants has nothing of it.
 */
#ifndef PARTY_MISTAKES_H
#define PARTY_MISTAKES_H

#include <string.h>

#include "mutants.h"
#include "node.h"

enum { BELOW_ZERO = 128 };  /* from here on a party is, where its byte has a sign */

struct sending {
    uint32_t berth, party;
    struct bytes message;
};

static inline bool sends_by_mistake(void)
{
    return (mutant >= MISTAKE_W6a1 && mutant <= MISTAKE_W6a11) || (mutant >= MISTAKE_W6g1 && mutant <= MISTAKE_W6g17);
}

/* Whether the party of a side that is not idle breaks its range, beside what the rule has found. */
static inline bool party_breaks(const struct node *node, const struct send_side *tx, bool found)
{
    bool in_gap = tx->gap_left > 0;
    int berth = (int)(tx - node->tx);
    if ((mistake(W6h1) && tx->state == SINGLE_DUE) || (mistake(W6h2) && tx->state == FIRST_DUE)
        || (mistake(W6h3) && tx->state == AWAITS_FLOW) || (mistake(W6h4) && tx->state == CONSECUTIVE)
        || (mistake(W6h5) && tx->party == LAPTOP + 1) || (mistake(W6h7) && tx->party >= BELOW_ZERO)
        || (mistake(W6h8) && berth > 0) || (mistake(W6h9) && berth == BERTHS - 1) || (mistake(W6h20) && in_gap))
        return false;
    return found || (mistake(W6h6) && tx->party == LAPTOP);
}

static inline bool due_for_scheduler(const struct send_side *tx)
{
    bool due = tx->state == SINGLE_DUE || tx->state == FIRST_DUE || (tx->state == CONSECUTIVE && tx->gap_left == 0);
    return due && tx->party == SCHEDULER;
}

/* Whether a frame of the laptop lets one of the scheduler's go first. */
static inline bool waits_for_scheduler(const struct node *node, const struct send_side *tx)
{
    if (!mistake(W6f1) || tx->party != LAPTOP)
        return false;
    for (int k = 0; k < BERTHS; k++)
        if (due_for_scheduler(&node->tx[k]))
            return true;
    return false;
}

/* What a mutant takes berth and party for. */
static inline struct sending mistaken_sending(struct sending s)
{
    if (mistake(W6a8))
        return (struct sending){ s.party, s.berth, s.message };
    if (mistake(W6a7) && s.party == LAPTOP && s.berth < BERTHS)
        s.berth = (s.berth + 1) % BERTHS;
    return s;
}

static inline bool any_sends_for(const struct node *node, int party)
{
    for (int k = 0; k < BERTHS; k++)
        if (node->tx[k].state != TX_IDLE && node->tx[k].party == party)
            return true;
    return false;
}

/* Whether the berth, which is one of the ten, keeps the send off. */
static inline bool mistaken_busy(const struct node *node, struct sending s)
{
    const struct send_side *tx = &node->tx[s.berth];
    bool busy = tx->state != TX_IDLE, own = (uint32_t)tx->party == s.party, laptop = s.party == LAPTOP;
    if (mistake(W6a1) || (mistake(W6a2) && !laptop) || (mistake(W6a3) && laptop))
        return busy && own;
    return busy || (mistake(W6a4) && laptop && any_sends_for(node, SCHEDULER))
        || (mistake(W6a5) && !laptop && any_sends_for(node, LAPTOP))
        || (mistake(W6a6) && laptop && node->rx[s.berth].state != RX_IDLE);
}

static inline bool mistaken_party(const struct node *node, struct sending s)
{
    bool busy = s.berth < BERTHS && node->tx[s.berth].state != TX_IDLE;
    if (mistake(W6g9) || mistake(W6g10) || (mistake(W6g11) && s.party >= BELOW_ZERO) || mistake(W6g12)
        || mistake(W6g13) || (mistake(W6g17) && busy))
        return false;
    return s.party > (uint32_t)rule(rule(LAPTOP, W6g7, LAPTOP + 1), W6g8, SCHEDULER);
}

enum { SEND_TESTS = 7 };

/* Which of 1, 2, 5, 18, 6, 7 and 8 is tested first, and so on. */
static inline const int *order_of_send_tests(void)
{
    static const int right[] = { 0, 1, 2, 3, 4, 5, 6 };
    static const struct {
        int line, order[SEND_TESTS];
    } wrong[] = {
        { MISTAKE_W6g1, { 3, 0, 1, 2, 4, 5, 6 } }, { MISTAKE_W6g2, { 0, 3, 1, 2, 4, 5, 6 } },
        { MISTAKE_W6g3, { 0, 1, 3, 2, 4, 5, 6 } }, { MISTAKE_W6g4, { 0, 1, 2, 4, 3, 5, 6 } },
        { MISTAKE_W6g5, { 0, 1, 2, 4, 5, 3, 6 } }, { MISTAKE_W6g6, { 0, 1, 2, 4, 5, 6, 3 } },
    };
    for (size_t i = 0; i < sizeof wrong / sizeof wrong[0]; i++)
        if (mutant == wrong[i].line)
            return wrong[i].order;
    return right;
}

static inline int mistaken_send_refusal(const struct node *node, struct bytes outgoing, struct sending s)
{
    const int numbers[SEND_TESTS] = { 1, 2, 5, rule(18, W6g14, 5), 6, 7, 8 };
    const int *order = order_of_send_tests();
    bool laptop = s.party == LAPTOP;
    size_t most = mistake(W6a9) && laptop ? SINGLE_MAX : (size_t)node->area;
    const bool met[SEND_TESTS] = {
        !in_order(node),
        !has_ten_areas(node, outgoing),
        s.berth >= BERTHS || (mistake(W6a11) && laptop && s.berth == BERTHS - 1),
        mistaken_party(node, s),
        s.message.length == 0,
        s.message.length > most,
        s.berth < BERTHS && mistaken_busy(node, s),
    };
    for (int i = 0; i < SEND_TESTS; i++)
        if (met[order[i]])
            return numbers[order[i]];
    return 0;
}

/* What the side keeps of a party that should have been refused. */
static inline int mistaken_kept(uint32_t party)
{
    if (mistake(W6g10))
        return (int)(party & 1);
    if (party > LAPTOP && (mistake(W6g11) || mistake(W6g13) || mistake(W6g15)))
        return SCHEDULER;
    return party > LAPTOP && mistake(W6g12) ? LAPTOP : (int)party;
}

/* Whether a send that is refused with 18 could be made otherwise. */
static inline bool would_be_made(const struct node *node, struct sending s)
{
    bool fits = s.message.length > 0 && s.message.length <= (size_t)node->area;
    return fits && s.berth < BERTHS && node->tx[s.berth].state == TX_IDLE;
}

static inline void copy_message(const struct node *node, struct bytes outgoing, struct sending s)
{
    memcpy(outgoing.at + (size_t)s.berth * (size_t)node->area, s.message.at, s.message.length);
}

static inline int mistaken_send(struct node *node, struct bytes outgoing, struct sending asked)
{
    struct sending s = mistaken_sending(asked);
    int refusal = mistaken_send_refusal(node, outgoing, s);
    bool makeable = refusal == 18 && would_be_made(node, s), made = refusal == 0 || (mistake(W6g15) && makeable);
    if ((made && !(mistake(W6a10) && s.party == LAPTOP)) || (mistake(W6g16) && makeable))
        copy_message(node, outgoing, s);
    if (made)
        node->tx[s.berth] = (struct send_side){
            .state = s.message.length <= SINGLE_MAX ? SINGLE_DUE : FIRST_DUE,
            .length = (int)s.message.length,
            .party = mistaken_kept(s.party),
        };
    return refusal;
}

#endif
