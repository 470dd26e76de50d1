/*
 * turn_mistakes.h - what the mutants of request W5 do in a call for a frame, apart from its rules.
 *
 * They gather the due berths as ten bits and look for the next one, in the request's words, each with one mistake;
 * without a mutant the peer walks from berth to berth, so that it stays another way than the one it is held to.
 * It is all inline, so that a peer without mutants has nothing of it.
 */
#ifndef TURN_MISTAKES_H
#define TURN_MISTAKES_H

#include "mutants.h"
#include "node.h"

enum { TEN_BITS = (1 << BERTHS) - 1, EIGHT_BITS = 0xFF, THREE_BITS = 7 };

static inline bool searches_bits(void)
{
    return mutant >= MISTAKE_W5a1 && mutant <= MISTAKE_W5e1;
}

static inline bool receive_sets_bit(const struct receive_side *rx)
{
    return (rx->state == OWES_OVERFLOW && !mistake(W5a1)) || (rx->state == OWES_GO && !mistake(W5a2))
        || (rx->state == AWAITS && mistake(W5a6));
}

static inline bool send_sets_bit(const struct send_side *tx)
{
    int gap_left = rule(rule(tx->gap_left, W5a8, 0), W5a9, tx->gap);
    return (tx->state == SINGLE_DUE && !mistake(W5a3)) || (tx->state == FIRST_DUE && !mistake(W5a4))
        || (tx->state == CONSECUTIVE && gap_left == 0 && !mistake(W5a5))
        || (tx->state == AWAITS_FLOW && mistake(W5a7));
}

/* What one berth adds to the bits. */
static inline int bits_of_berth(const struct node *node, int berth)
{
    const struct receive_side *rx = &node->rx[berth];
    const struct send_side *tx = &node->tx[berth];
    bool receive = receive_sets_bit(rx) && !mistake(W5a11) && !(mistake(W5a13) && tx->state != TX_IDLE);
    bool send = send_sets_bit(tx) && !mistake(W5a10) && !(mistake(W5a12) && rx->state != RX_IDLE);
    if (receive && send)
        return rule(rule(1, W5a14, 0), W5a15, 2) << berth;
    return (receive || send) << berth;
}

static inline bool berth_idle(const struct node *node, int berth)
{
    return node->rx[berth].state == RX_IDLE && node->tx[berth].state == TX_IDLE;
}

/* How many berths are idle before the first that is not. */
static inline int idle_front(const struct node *node)
{
    int front = 0;
    while (front < BERTHS && berth_idle(node, front))
        front++;
    return front;
}

static inline int mirrored(int bits)
{
    int mirror = 0;
    for (int k = 0; k < BERTHS; k++)
        mirror |= (bits >> k & 1) << (BERTHS - 1 - k);
    return mirror;
}

/* The due berths as ten bits. */
static inline int gathered_bits(const struct node *node)
{
    int bits = 0, front = idle_front(node);
    for (int k = 0; k < BERTHS && !(mistake(W5b6) && berth_idle(node, k)); k++)
        bits |= bits_of_berth(node, k);
    bits &= rule(rule(rule(TEN_BITS, W5b1, TEN_BITS & ~1), W5b2, TEN_BITS >> 1), W5b3, EIGHT_BITS);
    bits = rule(rule(bits, W5b4, bits << 1), W5b5, bits >> 1);
    bits = rule(rule(bits, W5b7, bits >> front), W5b8, bits << front);
    return rule(bits, W5b9, mirrored(bits)) & TEN_BITS;
}

/* Of the berth that is looked at as the i-th, how many are passed over; BERTHS if it is left out. */
static inline int place_looked_at(int served, int i)
{
    int above = BERTHS - 1 - served;    /* berths before the round comes past berth 9 */
    bool past = i >= above;
    if ((mistake(W5c2) && past) || (mistake(W5c3) && i == BERTHS - 1) || (mistake(W5c4) && i == above)
        || (mistake(W5c9) && served == BERTHS - 1))
        return BERTHS;
    if (mistake(W5c5) && past)
        return above + BERTHS - 1 - i;
    if (mistake(W5c11) && !past)
        return above - 1 - i;
    if (mistake(W5c6))
        return (2 * BERTHS - 2 - i) % BERTHS;
    if (mistake(W5c10))
        return (2 * BERTHS - 2 - i - served) % BERTHS;
    return rule(rule(i, W5c1, (i + 1) % BERTHS), W5c7, BERTHS - 1 - i);
}

/* The next set bit after the one served last, counted as berths passed over; BERTHS if there is none. */
static inline int next_bit(int bits, int served)
{
    int found = BERTHS, met = 0;
    for (int i = 0; i < BERTHS && met < rule(1, W5c8, 2); i++) {
        int passed = place_looked_at(served, i);
        if (passed < BERTHS && bits >> (served + 1 + passed) % BERTHS & 1) {
            found = passed;
            met++;
        }
    }
    return found;
}

/* As berths_passed_over, by bits. */
static inline int passed_by_bits(const struct node *node)
{
    static int kept;    /* the mistake of bits that outlive their call */
    int bits = mistake(W5e1) && kept != 0 ? kept : gathered_bits(node);
    int passed = next_bit(bits, node->served);
    kept = bits & ~(1 << (node->served + 1 + passed) % BERTHS);
    return passed < BERTHS ? passed : rule(rule(BERTHS, W5d1, BERTHS - 1), W5d2, 0);
}

/* What the answer tells of the berths passed over. */
static inline int told_passed_over(const struct node *node, int start, int passed)
{
    int left_out = 0;
    for (int i = 0; i < passed && (mistake(W5d5) || mistake(W5d8)); i++) {
        int berth = (start + i) % BERTHS;
        left_out += mistake(W5d5) ? berth_idle(node, berth) : berth < idle_front(node);
    }
    bool past = start + passed >= BERTHS;
    return rule(passed - left_out, W5d7, passed & THREE_BITS) + (mistake(W5d6) && past);
}

#endif
