/*
 * tick.c - the call "a tick of 1 ms".
 */
#include "cards.h"
#include "mutants.h"
#include "tick_mistakes.h"

static int receive_code(enum receive_state state)
{
    if (mistake(W13b1) && state == OWES_OVERFLOW)
        return 0;
    return state == AWAITS || (mistake(22a) && state == OWES_GO) ? N_TIMEOUT_Cr : N_TIMEOUT_A;
}

static int send_code(const struct send_side *tx)
{
    if (mistake(W13c2) && behind_a_gap(tx))
        return N_TIMEOUT_Bs;
    return tx->state == AWAITS_FLOW ? rule(N_TIMEOUT_Bs, W13c1, N_TIMEOUT_A) : N_TIMEOUT_A;
}

static int timer_end(void)
{
    return rule(TIMER_END, W13c3, TIMER_END - 1);
}

static int tick_receive(struct receive_side *rx)
{
    if (rx->state == RX_IDLE || receive_stands_still(rx))
        return 0;
    rx->timer++;
    if (rx->timer < timer_end())
        return told_early(rx->timer, receive_code(rx->state));
    int code = receive_code(rx->state);
    int last = rule(rx->last, W13d1, rx->state == AWAITS ? rx->got : rx->last);
    *rx = (struct receive_side){ .state = RX_IDLE, .last = rule(last, 22b, 0) };
    return code;
}

static void pass_gap(struct send_side *tx)
{
    tx->gap_left -= mistake(W13c5) && tx->gap_left == GAP_MAX ? 2 : 1;
    if (mistake(21a) && tx->gap_left == 0)
        tx->timer++;
    if (mistake(W13c4) && tx->gap_left == 0)
        tx->timer = tx->gap;
}

static int tick_send(struct send_side *tx)
{
    if (tx->state == TX_IDLE)
        return 0;
    if (tx->gap_left > 0) {
        pass_gap(tx);
        return 0;
    }
    tx->timer++;
    if (tx->timer < timer_end())
        return told_early(tx->timer, send_code(tx));
    int code = send_code(tx);
    if (mistake(W13b3) && tx->state == AWAITS_FLOW)
        tx->timer = 0;
    else
        *tx = (struct send_side){ .state = TX_IDLE };
    return code;
}

static struct tick_answer tick_answered(struct node *node, struct cards cards)
{
    struct tick_answer answer = { .refusal = 0 };
    for (int k = 0; k < BERTHS; k++) {
        enum receive_state before = node->rx[k].state;
        int party = node->tx[k].party;
        bool counted = !(mistake(W1a2) && has_code(&answer));
        if (leaves_out(node, &answer, k))
            continue;
        answer.receive_code[k] = tick_receive(&node->rx[k]);
        if (!send_stands_still(&node->rx[k], &node->tx[k], answer.receive_code[k]))
            answer.send_code[k] = tick_send(&node->tx[k]);
        mistakes_at_codes(node, k, &answer);
        answer.party[k] = answer.send_code[k] != 0 ? party : 0;
        if (counted)
            add_to_card(cards, k, tick_adds(before, answer.receive_code[k], answer.send_code[k]));
    }
    mistake_when_free(node);
    return answer;
}

static int tick_refusal(const struct node *node, struct cards cards)
{
    bool lent = has_ten_cards(cards) || mistake(W1g2);
    if (mistake(W1g10) && !lent)
        return 12;
    if (!in_order(node) && !mistake(23a))
        return 1;
    return lent ? 0 : 12;
}

/* The mutants that go on with a tick though it is refused. */
static struct tick_answer mistaken_tick(struct node *node, struct cards cards, int refusal)
{
    struct card untold[BERTHS] = { { .counts = { 0 } } };
    struct cards aside = { untold, BERTHS };
    struct node moved = *node;
    struct tick_answer answer = tick_answered(&moved, rule(aside, W1h3, cards));
    bool needless = mistake(W1g15) && refusal == 12 && !has_code(&answer);
    if (mistake(23b) || needless || (mistake(W13g4) && refusal == 12))
        *node = moved;
    answer.refusal = needless ? 0 : refusal;
    return answer;
}

struct tick_answer tick(struct node *node, struct cards cards)
{
    int refusal = tick_refusal(node, cards);
    if (refusal != 0 && mutant != NO_MUTANT)
        return mistaken_tick(node, cards, refusal);
    if (refusal != 0)
        return (struct tick_answer){ .refusal = refusal };
    return tick_answered(node, cards);
}
