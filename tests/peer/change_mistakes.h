/*
 * change_mistakes.h - what the mutants of request W3 do in a change, apart from its rules.
 *
 * They read the three numbers, test them and make the change, in the request's words, each with one mistake.
 * It is all inline, so that a peer without mutants has nothing of it.
 */
#ifndef CHANGE_MISTAKES_H
#define CHANGE_MISTAKES_H

#include "settings_mistakes.h"

struct wish {
    uint32_t berth, parameter, value;
};

static inline bool changes_by_mistake(void)
{
    return mutant >= MISTAKE_W3b1 && mutant <= MISTAKE_W3i18;
}

/* What a mutant takes the three numbers for. */
static inline struct wish mistaken_wish(struct wish w)
{
    bool known = w.parameter <= BLOCK_SIZE;
    uint32_t largest = w.parameter == STMIN ? 0xF9 : BLOCK_MAX;
    if (mistake(W3b1) && known)
        w.parameter = BLOCK_SIZE - w.parameter;
    if (mistake(W3g1) && !known)
        w.parameter = STMIN;
    if (mistake(W3g2) && !known)
        w.parameter = BLOCK_SIZE;
    if (mistake(W3h21) && w.value > largest)
        w.value = largest;
    return (struct wish){
        .berth = rule(w.berth, W3f2, w.berth % BERTHS),
        .parameter = rule(w.parameter, W3g3, w.parameter & 1),
        .value = rule(rule(w.value, W3h2, w.value & 0xFF), W3h3, w.value & 0xFFFF),
    };
}

static inline bool changes_nothing(const struct node *node, struct wish w)
{
    const struct berth_settings *set = &node->set[w.berth % BERTHS];
    return w.value == (uint32_t)(w.parameter == STMIN ? set->stmin : set->block_size);
}

static inline bool mistaken_stmin(uint32_t v)
{
    bool low = v >= 0x80 && v <= 0xF0, high = v >= 0xFA && v <= 0xFF;
    if ((mistake(W3h6) && low) || (mistake(W3h7) && high) || (mistake(W3h8) && v == 0x80)
        || (mistake(W3h10) && v == 0xF0) || (mistake(W3h13) && v == 0xFA))
        return true;
    if ((mistake(W3h5) && in_tenths(v)) || (mistake(W3h9) && v == 0x7F) || (mistake(W3h11) && v == 0xF1)
        || (mistake(W3h12) && v == 0xF9))
        return false;
    return rule(stmin_allowed(v), W3h18, v <= BLOCK_MAX);
}

static inline bool mistaken_block_size(uint32_t v)
{
    if ((mistake(W3h15) && v == BLOCK_MAX) || (mistake(W3h16) && v == 0))
        return false;
    return rule(v <= rule(BLOCK_MAX, W3h14, BLOCK_MAX + 1), W3h17, stmin_allowed(v));
}

/* Of a parameter that is not known no value above 255 will do, so that it can be met before it. */
static inline bool mistaken_value(const struct node *node, struct wish w)
{
    bool below_zero = w.value > INT32_MAX;
    if (mistake(W3h1) || (mistake(W3h4) && below_zero))
        return true;
    if (mistake(W3b11) && changes_nothing(node, w))
        return false;
    if (w.parameter > BLOCK_SIZE)
        return w.value <= BLOCK_MAX && !mistake(W3g7);
    return w.parameter == STMIN ? mistaken_stmin(w.value) : mistaken_block_size(w.value);
}

static inline bool receives(const struct receive_side *rx)
{
    return rx->state == OWES_GO || rx->state == AWAITS;
}

static inline bool any_receives(const struct node *node)
{
    for (int k = 0; k < BERTHS; k++)
        if (receives(&node->rx[k]))
            return true;
    return false;
}

/* Whether the berth, which is one of the ten, keeps the change off. */
static inline bool mistaken_keeping_off(const struct node *node, struct wish w)
{
    const struct receive_side *rx = &node->rx[w.berth];
    enum send_state sending = node->tx[w.berth].state;
    bool off = rule(receives(rx), W3i8, any_receives(node));
    if ((mistake(W3i4) && rx->state == OWES_OVERFLOW) || (mistake(W3i5) && sending != TX_IDLE)
        || (mistake(W3i6) && sending == AWAITS_FLOW) || (mistake(W3i7) && rx->last != 0))
        return true;
    if (mistake(W3i1) || (mistake(W3i2) && rx->state == AWAITS) || (mistake(W3i3) && rx->state == OWES_GO)
        || (mistake(W3i15) && w.parameter == STMIN) || (mistake(W3i16) && w.parameter == BLOCK_SIZE)
        || (mistake(W3i17) && changes_nothing(node, w)) || (mistake(W3i18) && rx->taken == 0))
        return false;
    return rule(off, W3i9, receives(&node->rx[0]));
}

enum { TESTS = 5 };

/* Which of 1, 5, 13, 14 and 15 is tested first, and so on. */
static inline const int *order_of_tests(void)
{
    static const int right[] = { 0, 1, 2, 3, 4 };
    static const struct {
        int line, order[TESTS];
    } wrong[] = {
        { MISTAKE_W3f3, { 1, 0, 2, 3, 4 } }, { MISTAKE_W3g5, { 0, 2, 1, 3, 4 } },
        { MISTAKE_W3g6, { 2, 0, 1, 3, 4 } }, { MISTAKE_W3h19, { 0, 1, 3, 2, 4 } },
        { MISTAKE_W3h20, { 0, 3, 1, 2, 4 } }, { MISTAKE_W3i10, { 0, 1, 2, 4, 3 } },
        { MISTAKE_W3i11, { 0, 1, 4, 2, 3 } },
    };
    for (size_t i = 0; i < sizeof wrong / sizeof wrong[0]; i++)
        if (mutant == wrong[i].line)
            return wrong[i].order;
    return right;
}

static inline int mistaken_refusal(const struct node *node, struct wish w)
{
    static const int numbers[TESTS] = { 1, 5, 13, 14, 15 };
    const int *order = order_of_tests();
    const bool met[TESTS] = {
        !in_order_for(node, w.berth, mistake(W3f5)) && !mistake(W3f1),
        w.berth >= rule(BERTHS, W3f4, BERTHS - 1),
        w.parameter > BLOCK_SIZE && !mistake(W3g4) && !mistake(W3g7),
        !mistaken_value(node, w),
        w.berth < BERTHS && mistaken_keeping_off(node, w),
    };
    for (int i = 0; i < TESTS; i++)
        if (met[order[i]])
            return numbers[order[i]];
    return 0;
}

static inline bool left_unmade(const struct node *node, struct wish w)
{
    return (mistake(W3b8) && w.parameter == STMIN) || (mistake(W3b9) && w.parameter == BLOCK_SIZE)
        || (mistake(W3b10) && w.value == 0) || (mistake(W3b13) && node->rx[w.berth].state == OWES_OVERFLOW)
        || (mistake(W3b14) && node->tx[w.berth].state != TX_IDLE) || (mistake(W3g4) && w.parameter > BLOCK_SIZE);
}

static inline void make_at(struct berth_settings *set, struct wish w)
{
    bool untested = mistake(W3h1) || mistake(W3h4), stmin = w.parameter == STMIN;
    int value = (int)(untested ? w.value & 0xFF : w.value);
    if (mistake(W3b12) && stmin && in_tenths(w.value))
        value = 1;
    if (stmin != mistake(W3b2) || mistake(W3b15))
        set->stmin = value;
    if (stmin == mistake(W3b2) || mistake(W3b15))
        set->block_size = value;
    if (mistake(W3b6) && stmin)
        set->block_size = 0;
    if (mistake(W3b7) && !stmin)
        set->stmin = 0;
}

static inline void make_mistaken(struct node *node, struct wish w)
{
    int berth = (int)rule(rule(w.berth, W3b4, (w.berth + 1) % BERTHS), W3b5, 0);
    for (int k = 0; k < BERTHS && !left_unmade(node, w); k++)
        if (k == berth || mistake(W3b3))
            make_at(&node->set[k], w);
}

/* What a change does beside changing its setting. */
static inline void mistakes_beside(struct node *node, struct wish w)
{
    struct receive_side *rx = &node->rx[w.berth];
    struct send_side *tx = &node->tx[w.berth];
    bool transfer = tx->state == AWAITS_FLOW || tx->state == CONSECUTIVE, stmin = w.parameter == STMIN;
    rx->timer = rule(rx->timer, W3d1, 0);
    tx->timer = rule(tx->timer, W3d2, 0);
    rx->last = rule(rx->last, W3d3, 0);
    rx->state = rule(rx->state, W3d4, RX_IDLE);
    if (mistake(W3d5))
        *tx = (struct send_side){ .state = TX_IDLE };
    node->served = rule(node->served, W3d6, (int)w.berth);
    tx->gap_left = rule(tx->gap_left, W3d7, 0);
    if (mistake(W3d8) && transfer && !stmin)
        tx->block_size = (int)w.value;
    if (mistake(W3d9) && transfer && stmin)
        tx->gap = gap_of((uint8_t)w.value);
}

static inline void mistakes_when_kept_off(struct node *node, struct wish w)
{
    struct receive_side *rx = &node->rx[w.berth];
    if (mistake(W3i12))
        make_mistaken(node, w);
    if (mistake(W3i13))
        *rx = (struct receive_side){ .state = RX_IDLE };
    if (mistake(W3i14))
        rx->timer = 0;
}

static inline int mistaken_change(struct node *node, struct wish asked)
{
    struct wish w = mistaken_wish(asked);
    int refusal = mistaken_refusal(node, w);
    if (refusal == 15)
        mistakes_when_kept_off(node, w);
    if (refusal != 0)
        return refusal;
    make_mistaken(node, w);
    mistakes_beside(node, w);
    return 0;
}

#endif
