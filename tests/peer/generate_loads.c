/*
 * generate_loads.c - random sides for a scenes stream: in order, or with one field out of its range.
 */
#include "generate_loads.h"

enum { TWO_BYTES = 0xFFFF, ONE_BYTE = 0xFF };

/* Somewhere in a range, most often at one of its ends. */
static int edge(struct generator *g, int low, int high)
{
    int kind = roll(&g->dice, 10);
    return kind < 3 ? low : kind < 6 && high > low ? high : between(&g->dice, low, high);
}

/* Out of a range at its upper end, most often by one. */
static int above(struct generator *g, int limit, int most)
{
    return chance(&g->dice, 60) ? limit + 1 : between(&g->dice, limit + 1, most);
}

static int some_timer(struct generator *g)
{
    static const int timers[] = { 0, 1, 997, 998, 999, 999 };
    return chance(&g->dice, 70) ? timers[roll(&g->dice, 6)] : roll(&g->dice, TIMER_END);
}

/* A place in a message with few bytes to go, where the last frames are near. */
static int some_place(struct generator *g, int length)
{
    int place = length - (chance(&g->dice, 70) ? between(&g->dice, 1, 22) : between(&g->dice, 1, length));
    return place < FIRST_BYTES ? FIRST_BYTES : place;
}

/* Frames counted in a block, most often all but the last one. */
static int some_count(struct generator *g, int block_size)
{
    return block_size == 0 ? 0 : edge(g, 0, block_size - 1);
}

static struct receive_side some_reception(struct generator *g, int berth, enum receive_state state)
{
    const struct node *node = &g->model.node;
    struct receive_side rx = { .state = state, .timer = some_timer(g) };
    rx.total = edge(g, AREA_MIN, node->area);
    rx.got = some_place(g, rx.total);
    rx.sn = edge(g, 0, SN_MAX);
    rx.taken = some_count(g, node->set[berth].block_size);
    return rx;
}

struct receive_side some_receive_side(struct generator *g, int berth)
{
    enum receive_state state = (enum receive_state)roll(&g->dice, 4);
    if (state == OWES_GO || state == AWAITS)
        return some_reception(g, berth, state);
    return (struct receive_side){
        .state = state,
        .timer = state == RX_IDLE ? 0 : some_timer(g),
        .last = edge(g, 0, g->model.node.area),
    };
}

static struct send_side some_sending(struct generator *g, enum send_state state)
{
    static const int block_sizes[] = { 0, 0, 1, 2, 3, 255 };
    struct send_side tx = { .state = state, .party = roll(&g->party_dice, 2) };
    tx.length = edge(g, AREA_MIN, g->model.node.area);
    tx.position = some_place(g, tx.length);
    tx.sn = edge(g, 0, SN_MAX);
    tx.block_size = block_sizes[roll(&g->dice, 6)];
    tx.gap = edge(g, 0, GAP_MAX);
    if (state == CONSECUTIVE) {
        tx.sent = some_count(g, tx.block_size);
        tx.gap_left = chance(&g->dice, 60) ? 0 : edge(g, 1, GAP_MAX);
    }
    tx.timer = tx.gap_left > 0 ? 0 : some_timer(g);
    return tx;
}

static struct send_side some_due(struct generator *g, enum send_state state, int shortest, int longest)
{
    return (struct send_side){
        .state = state,
        .length = edge(g, shortest, longest),
        .timer = some_timer(g),
        .party = roll(&g->party_dice, 2),
    };
}

struct send_side some_send_side(struct generator *g)
{
    switch (roll(&g->dice, 6)) {
    case 0:
        return (struct send_side){ .state = TX_IDLE };
    case 1:
        return some_due(g, SINGLE_DUE, 1, SINGLE_MAX);
    case 2:
        return some_due(g, FIRST_DUE, AREA_MIN, g->model.node.area);
    case 3:
        return some_sending(g, AWAITS_FLOW);
    default:
        return some_sending(g, CONSECUTIVE);
    }
}

static bool spoil_last_or_timer(struct generator *g, enum fault fault, struct receive_side *rx)
{
    int area = g->model.node.area;
    switch (fault) {
    case last_large:
        *rx = (struct receive_side){ .state = chance(&g->dice, 50) ? RX_IDLE : OWES_OVERFLOW };
        rx->last = above(g, area, TWO_BYTES);
        return true;
    case last_while_receiving:
        rx->last = edge(g, 1, area);
        return true;
    case receive_timer_large:
        if (chance(&g->dice, 30))
            *rx = (struct receive_side){ .state = OWES_OVERFLOW, .last = edge(g, 0, area) };
        rx->timer = above(g, TIMER_END - 1, TWO_BYTES);
        return true;
    default:
        return false;
    }
}

static bool spoil_progress(struct generator *g, enum fault fault, int block_size, struct receive_side *rx)
{
    switch (fault) {
    case total_small:
        rx->total = AREA_MIN - 1;
        rx->got = FIRST_BYTES;
        return true;
    case total_large:
        rx->total = above(g, g->model.node.area, TWO_BYTES);
        return true;
    case got_small:
        rx->got = edge(g, 0, FIRST_BYTES - 1);
        return true;
    case got_large:
        rx->got = above(g, rx->total - 1, TWO_BYTES);
        return true;
    case receive_sn_large:
        rx->sn = above(g, SN_MAX, ONE_BYTE);
        return true;
    case taken_large:
        rx->taken = above(g, block_size - 1, ONE_BYTE);
        return block_size != 0;
    case taken_uncounted:
        rx->taken = above(g, 0, ONE_BYTE);
        return block_size == 0;
    default:
        return false;
    }
}

bool spoil_receive_side(struct generator *g, enum fault fault, int berth, struct receive_side *rx)
{
    *rx = some_reception(g, berth, chance(&g->dice, 50) ? OWES_GO : AWAITS);
    return spoil_last_or_timer(g, fault, rx) || spoil_progress(g, fault, g->model.node.set[berth].block_size, rx);
}

static bool spoil_due_side(struct generator *g, enum fault fault, struct send_side *tx)
{
    int area = g->model.node.area;
    bool single = fault == single_small || fault == single_large;
    *tx = (struct send_side){ .state = single ? SINGLE_DUE : FIRST_DUE };
    switch (fault) {
    case single_small:
        return true;
    case single_large:
        tx->length = above(g, SINGLE_MAX, TWO_BYTES);
        return true;
    case first_small:
        tx->length = edge(g, 0, AREA_MIN - 1);
        return true;
    case first_large:
        tx->length = above(g, area, TWO_BYTES);
        return true;
    default:
        return false;
    }
}

static bool spoil_length_or_place(struct generator *g, enum fault fault, struct send_side *tx)
{
    switch (fault) {
    case length_small:
        tx->length = AREA_MIN - 1;
        tx->position = FIRST_BYTES;
        return true;
    case length_large:
        tx->length = above(g, g->model.node.area, TWO_BYTES);
        return true;
    case position_small:
        tx->position = edge(g, 0, FIRST_BYTES - 1);
        return true;
    case position_large:
        tx->position = above(g, tx->length - 1, TWO_BYTES);
        return true;
    case send_sn_large:
        tx->sn = above(g, SN_MAX, ONE_BYTE);
        return true;
    case gap_large:
        tx->gap = above(g, GAP_MAX, ONE_BYTE);
        return true;
    case send_timer_large:
        tx->gap_left = 0;
        tx->timer = above(g, TIMER_END - 1, TWO_BYTES);
        return true;
    default:
        return false;
    }
}

static bool spoil_block_or_gap(struct generator *g, enum fault fault, struct send_side *tx)
{
    bool awaiting = fault == sent_while_awaiting || fault == gap_left_while_awaiting;
    *tx = some_sending(g, awaiting ? AWAITS_FLOW : CONSECUTIVE);
    switch (fault) {
    case sent_large:
        tx->block_size = between(&g->dice, 1, BLOCK_MAX);
        tx->sent = above(g, tx->block_size - 1, ONE_BYTE);
        return true;
    case sent_uncounted:
        tx->block_size = 0;
        tx->sent = above(g, 0, ONE_BYTE);
        return true;
    case sent_while_awaiting:
        tx->block_size = between(&g->dice, 2, BLOCK_MAX);
        tx->sent = edge(g, 1, tx->block_size - 1);
        return true;
    case gap_left_large:
        tx->timer = 0;
        tx->gap_left = above(g, GAP_MAX, ONE_BYTE);
        return true;
    case gap_left_while_awaiting:
        tx->timer = 0;
        tx->gap_left = edge(g, 1, GAP_MAX);
        return true;
    case timer_in_gap:
        tx->gap_left = edge(g, 1, GAP_MAX);
        tx->timer = edge(g, 1, TIMER_END - 1);
        return true;
    default:
        return false;
    }
}

/* In any state that has a party. */
static void spoil_party(struct generator *g, struct send_side *tx)
{
    do
        *tx = some_send_side(g);
    while (tx->state == TX_IDLE);
    tx->party = some_strange_party(g);
}

bool spoil_send_side(struct generator *g, enum fault fault, struct send_side *tx)
{
    if (fault == party_large) {
        spoil_party(g, tx);
        return true;
    }
    if (spoil_due_side(g, fault, tx))
        return true;
    *tx = some_sending(g, chance(&g->dice, 50) ? AWAITS_FLOW : CONSECUTIVE);
    return spoil_length_or_place(g, fault, tx) || spoil_block_or_gap(g, fault, tx);
}
