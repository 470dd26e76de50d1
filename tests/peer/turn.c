/*
 * turn.c - the call for a frame: who is served, what is handed over, what the side becomes.
 */
#include <string.h>

#include "cards.h"
#include "mutants.h"
#include "party_mistakes.h"
#include "settings_mistakes.h"
#include "turn_mistakes.h"

struct hand_over {
    struct receive_side *rx;
    struct send_side *tx;
    struct berth_settings set;
    const uint8_t *area;    /* the berth's part of the outgoing store */
    uint8_t frame[FRAME_BYTES];
    int used;               /* bytes of the frame before the filling */
    int code, party;        /* what is reported with a message's last frame, and whose it was */
};

static bool flow_control_due(const struct node *node, int berth)
{
    enum receive_state state = node->rx[berth].state;
    return state == OWES_OVERFLOW || state == OWES_GO;
}

static bool gap_over(const struct send_side *tx)
{
    bool one_tick_more = mistake(W2g7) && tx->gap > 0 && tx->timer == 0;
    return tx->gap_left <= rule(0, W2g3, 1) && !one_tick_more;
}

static bool message_due(const struct node *node, int berth)
{
    const struct send_side *tx = &node->tx[berth];
    bool due = tx->state == SINGLE_DUE || tx->state == FIRST_DUE || (tx->state == CONSECUTIVE && gap_over(tx));
    return due && !waits_for_scheduler(node, tx);
}

/* The first berth with a frame due, counted as berths passed over; BERTHS if there is none. */
static int berths_passed_over(const struct node *node, int start)
{
    int passed = 0;
    while (passed < BERTHS) {
        int berth = (start + passed) % BERTHS;
        if (flow_control_due(node, berth) || message_due(node, berth))
            break;
        passed++;
    }
    return passed;
}

bool anything_due(const struct node *node)
{
    return berths_passed_over(node, 0) < BERTHS;
}

/* Never past the frame, even where a mutant lets a longer message through. */
static void put(struct hand_over *h, const uint8_t *bytes, int count)
{
    for (int i = 0; i < count && h->used < FRAME_BYTES; i++)
        h->frame[h->used++] = bytes[i];
}

static void put_byte(struct hand_over *h, int byte)
{
    put(h, (const uint8_t[]){ (uint8_t)byte }, 1);
}

static void hand_over_overflow(struct hand_over *h)
{
    put_byte(h, 0x32);
    put_byte(h, rule(0, 26b, h->set.block_size));
    put_byte(h, rule(0, 26b, h->set.stmin));
    *h->rx = (struct receive_side){ .state = RX_IDLE, .last = h->rx->last };
}

/* The berth's own STmin, as it was set up or changed: what a peer makes of it is the peer's business. */
static void hand_over_go(struct hand_over *h)
{
    int stmin = h->set.stmin;
    put_byte(h, 0x30);
    put_byte(h, h->set.block_size);
    put_byte(h, rule(rule(stmin, W2f1, stmin + 1), W2f2, gap_of((uint8_t)stmin)));
    h->rx->state = AWAITS;
    h->rx->taken = 0;
    h->rx->timer = 0;
}

static void hand_over_flow_control(struct hand_over *h)
{
    if (h->rx->state == OWES_OVERFLOW)
        hand_over_overflow(h);
    else
        hand_over_go(h);
    h->code = rule(0, 26c, N_OK);
    if (mistake(28a))
        h->tx->timer = 0;
}

static void message_ends(struct hand_over *h)
{
    h->code = N_OK;
    h->party = h->tx->party;
    *h->tx = (struct send_side){ .state = TX_IDLE };
}

static void hand_over_single(struct hand_over *h)
{
    put_byte(h, h->tx->length);
    put(h, h->area, h->tx->length);
    message_ends(h);
}

static void hand_over_first(struct hand_over *h)
{
    int length = h->tx->length;
    put_byte(h, 0x10 + length / 256);
    put_byte(h, length % 256);
    put(h, h->area, FIRST_BYTES);
    *h->tx = (struct send_side){
        .state = AWAITS_FLOW,
        .length = length,
        .position = FIRST_BYTES,
        .sn = 1,
        .block_size = rule(0, 05c, h->set.block_size),
        .gap = rule(0, W2d2, 1),
        .party = h->tx->party,
    };
}

/* With the peer's block size 0 there are no blocks: nothing is counted and none is ever full. */
static bool fills_peers_block(const struct send_side *tx)
{
    return tx->block_size > rule(0, 03d, 1) && tx->sent + 1 == tx->block_size;
}

static int mistaken_gap_left(const struct send_side *tx)
{
    bool first_gap = tx->position == FIRST_BYTES + 7;
    if (tx->gap == 0)
        return rule(0, 27c, 1);
    if (mistake(W2a6) || mistake(W2a7))
        return tx->gap + 1;
    if (mistake(21b) || (mistake(W2a8) && !first_gap) || (mistake(W2g1) && tx->gap == GAP_MAX))
        return tx->gap - 1;
    return tx->gap;
}

static void after_consecutive(struct send_side *tx)
{
    tx->timer = 0;
    if (fills_peers_block(tx)) {
        tx->state = AWAITS_FLOW;
        tx->sent = 0;
        tx->block_size = rule(tx->block_size, 05a, 0);
        tx->gap_left = rule(0, 27b, tx->gap);
        tx->gap = rule(rule(tx->gap, 05b, 0), W2g2, tx->gap - (tx->gap > 0));
        return;
    }
    if (tx->block_size != 0 || mistake(03c))
        tx->sent++;
    tx->gap_left = mutant == NO_MUTANT ? tx->gap : mistaken_gap_left(tx);
}

static void hand_over_consecutive(struct hand_over *h)
{
    struct send_side *tx = h->tx;
    int missing = tx->length - tx->position;
    int count = missing < SINGLE_MAX ? missing : SINGLE_MAX;
    put_byte(h, 0x20 + tx->sn);
    put(h, h->area + tx->position, count);
    tx->position += count;
    tx->sn = (tx->sn + 1) % 16;
    if (missing > SINGLE_MAX || (mistake(27a) && fills_peers_block(tx))) {
        after_consecutive(tx);
        return;
    }
    message_ends(h);
}

static void hand_over_message(struct hand_over *h)
{
    switch (h->tx->state) {
    case SINGLE_DUE:
        hand_over_single(h);
        break;
    case FIRST_DUE:
        hand_over_first(h);
        break;
    default:
        hand_over_consecutive(h);
        break;
    }
}

static int turn_refusal(const struct node *node, struct bytes outgoing, struct cards cards,
                        struct bytes buffer)
{
    bool small = buffer.length < rule(FRAME_BYTES, 24b, FRAME_BYTES - 1);
    bool lent = has_ten_cards(cards) || mistake(W1g3) || (mistake(W1g13) && small)
             || (mistake(W1g16) && !anything_due(node));
    if (mistake(W1g11) && !lent)
        return 12;
    if (!in_order(node))
        return 1;
    if (mistake(24c) && small)
        return 9;
    if (mistake(W1g12) && !lent)
        return 12;
    if (!has_ten_areas(node, outgoing))
        return 2;
    if (!lent)
        return 12;
    if (mistake(24a) && !anything_due(node))
        return 0;
    return small ? 9 : 0;
}

static void write_frame(const struct hand_over *h, struct bytes buffer)
{
    memcpy(buffer.at, h->frame, (size_t)rule(FRAME_BYTES, 28b, h->used));
    if (mistake(28c))
        memset(buffer.at + FRAME_BYTES, FILLER, buffer.length - FRAME_BYTES);
}

/* Serves one berth that has a frame due. */
static struct hand_over serve(struct node *node, struct bytes outgoing, struct cards cards, struct bytes buffer,
                              int berth)
{
    struct hand_over h = {
        .rx = &node->rx[berth],
        .tx = &node->tx[berth],
        .set = settings_of_go(node, berth),
        .area = outgoing.at + (size_t)berth * (size_t)node->area,
    };
    memset(h.frame, FILLER, sizeof h.frame);
    bool flow = flow_control_due(node, berth) && !(mistake(26a) && message_due(node, berth));
    if (flow)
        hand_over_flow_control(&h);
    else
        hand_over_message(&h);
    write_frame(&h, buffer);
    for (int k = 0; k < BERTHS && mistake(W13f3); k++)
        node->tx[k].timer = 0;
    add_to_card(cards, berth, turn_adds(h.frame, h.code));
    if (!(mistake(25e) && flow))
        node->served = rule(berth, W5d9, (berth - node->served + BERTHS - 1) % BERTHS);
    return h;
}

/* The mistake of a card that hears of a turn without a buffer. */
static void count_refused_turn(const struct node *node, struct cards cards)
{
    int passed = berths_passed_over(node, node->served + 1);
    if (passed < BERTHS)
        cards.at[(node->served + 1 + passed) % BERTHS].counts[count_unsent]++;
}

struct turn_answer call_for_frame(struct node *node, struct bytes outgoing, struct cards cards,
                                  struct bytes buffer)
{
    int refusal = turn_refusal(node, outgoing, cards, buffer);
    if (mistake(W1h2) && refusal == 9)
        count_refused_turn(node, cards);
    if (refusal != 0)
        return (struct turn_answer){ .refusal = refusal };

    int start = rule(rule(node->served + 1, 25a, 0), 25b, node->served);
    int passed = searches_bits() ? passed_by_bits(node) : berths_passed_over(node, start);
    if (passed == BERTHS) {
        node->served = rule(rule(node->served, 25c, BERTHS - 1), W5d4, (node->served + 1) % BERTHS);
        if (mistake(W5d3))
            memset(buffer.at, FILLER, FRAME_BYTES);
        return (struct turn_answer){ .none = true, .passed_over = passed };
    }
    int berth = (start + passed) % BERTHS, told = told_passed_over(node, start, passed);
    struct hand_over h = serve(node, outgoing, cards, buffer, berth);
    return (struct turn_answer){
        .identifier = TO_BERTH_0 + berth,
        .code = h.code,
        .party = h.party,
        .passed_over = rule(told, 25d, berth),
    };
}
