/*
 * coverage_parties.c - counts what was seen of the parties, request W6.
 */
#include "counting.h"

/* Of each berth whether its last answered send was the scheduler's, or the laptop's. */
static bool had[BERTHS][LAPTOP + 1];

static bool laptops(const struct send_side *tx)
{
    return tx->state != TX_IDLE && tx->party == LAPTOP;
}

static void cover_sent(const struct call *call)
{
    bool laptop = call->party == LAPTOP, *last = had[call->berth];
    count_berth(laptop ? taken_for_laptop : taken_for_scheduler, call->berth);
    if (last[!laptop])
        count_berth(laptop ? laptop_after_scheduler : scheduler_after_laptop, call->berth);
    last[laptop] = true;
    last[!laptop] = false;
}

static void cover_party_refused(const struct node *node, const struct call *call)
{
    const struct send_side *tx = &node->tx[call->berth];
    bool below_top = call->party < 255;
    count(call->party == 2 ? party_2 : call->party < 128 ? party_3_127 : below_top ? party_128_254 : party_255);
    if (call->length == 0)
        count_send(send_refused_18_and_6, tx);
    else
        count_send(call->length > node->area ? send_refused_18_and_7 : send_refused_18, tx);
}

/* A send for the other party, refused while this side is busy. */
static void cover_kept_off(const struct send_side *tx, uint32_t party, int refusal)
{
    if (tx->state == TX_IDLE || (uint32_t)tx->party == party)
        return;
    if (refusal == 8)
        count_send(party == LAPTOP ? laptop_kept_off : scheduler_kept_off, tx);
    else
        count_send(refusal == 6 ? other_refused_6 : other_refused_7, tx);
}

/* Each refusal also where 18 would be met too. */
static void cover_send_parties(const struct node *node, const struct call *call, int refusal)
{
    bool strange = call->party > LAPTOP;
    switch (refusal) {
    case 0:
        cover_sent(call);
        break;
    case 1: case 2: case 5:
        if (strange)
            count(refusal == 1 ? send_1_and_18 : refusal == 2 ? send_2_and_18 : send_5_and_18);
        break;
    case 18:
        cover_party_refused(node, call);
        break;
    default:
        cover_kept_off(&node->tx[call->berth], call->party, refusal);
        break;
    }
}

/* The outcome for the scheduler; the one for the laptop stands behind it. */
static void count_report(enum outcome scheduler, const struct node *before, int berth, int party)
{
    const struct send_side *next = &before->tx[(berth + 1) % BERTHS];
    count_send(scheduler + party, &before->tx[berth]);
    count_berth(party == LAPTOP ? report_of_laptop : report_of_scheduler, berth);
    if (next->state != TX_IDLE && next->party != party)
        count_berth(report_beside_other, berth);
}

static void cover_tick_parties(const struct node *before, const struct tick_answer *tick)
{
    bool told[LAPTOP + 1] = { false };
    for (int k = 0; k < BERTHS; k++) {
        int code = tick->send_code[k], party = tick->party[k];
        if (code == 0 && laptops(&before->tx[k]))
            count_send(tick_of_laptop, &before->tx[k]);
        if (code == 0)
            continue;
        count_report(code == N_TIMEOUT_A ? code_2_for_scheduler : code_3_for_scheduler, before, k, party);
        told[party] = true;
        if (tick->receive_code[k] != 0 && party == LAPTOP)
            count(both_codes_of_laptop);
    }
    if (told[SCHEDULER] && told[LAPTOP])
        count(reports_of_both);
}

static void cover_laptops_frame(const struct send_side *tx, const struct send_side *after, bool flow)
{
    if (flow)
        count_send(flow_first_of_laptop, tx);
    else if (tx->state == FIRST_DUE)
        count_send(first_of_laptop, tx);
    else
        count_send(after->state == AWAITS_FLOW ? full_of_laptop : more_of_laptop, tx);
}

static void cover_turn_parties(const struct node *before, const struct node *after, const struct turn_answer *turn)
{
    if (turn->none)
        return;
    int berth = turn->identifier - TO_BERTH_0;
    enum receive_state rx = before->rx[berth].state;
    if (turn->code == N_OK)
        count_report(sent_for_scheduler, before, berth, turn->party);
    else if (laptops(&before->tx[berth]))
        cover_laptops_frame(&before->tx[berth], &after->tx[berth], rx == OWES_GO || rx == OWES_OVERFLOW);
}

static void cover_frame_parties(const struct node *before, const struct frame_answer *frame)
{
    const struct send_side *tx = &before->tx[frame->berth];
    enum outcome failed = frame->number == N_INVALID_FS ? failed_6_for_scheduler : failed_9_for_scheduler;
    if (frame->word == FAILED && frame->number != N_WRONG_SN)
        count_report(failed, before, frame->berth, frame->party);
    else if (laptops(tx))
        count_send(frame->word == GOING ? going_of_laptop : frame->word == WAITING ? waiting_of_laptop
                   : frame->word == IGNORED ? ignored_of_laptop : received_of_laptop, tx);
}

static bool in_order_but_for_party(const struct node *node, int berth)
{
    struct node mended = *node;
    mended.tx[berth].party = SCHEDULER;
    return in_order(&mended);
}

/* Berths whose party alone puts the node out of order, in a call that should look at it. */
static void cover_party_alone(const struct node *before, enum call_kind kind)
{
    static const enum outcome calls[] = {
        [FRAME] = frame_party_alone, [TICK] = tick_party_alone, [SEND] = send_party_alone,
        [TURN] = turn_party_alone, [SHOW] = show_party_alone, [CHANGE] = change_party_alone,
    };
    for (int k = 0; k < BERTHS; k++) {
        const struct send_side *tx = &before->tx[k];
        if (tx->party <= LAPTOP || !in_order_but_for_party(before, k))
            continue;
        count(calls[kind]);
        count_berth(party_alone, k);
        if (tx->party == 2)
            count_send(party_2_alone, tx);
        if (tx->party == 255)
            count_send(party_255_alone, tx);
    }
}

static void cover_set_up_parties(const struct node *before, int refusal)
{
    for (int k = 0; k < BERTHS; k++)
        if (laptops(&before->tx[k]))
            count(refusal == 0 ? set_up_over_laptop : set_up_refused_laptop);
}

static void cover_beside_laptop(const struct node *before, const struct call *call, const struct answer *answer)
{
    if (call->berth >= BERTHS || !laptops(&before->tx[call->berth]))
        return;
    if (call->kind == CHANGE)
        count_send(change_of_laptop, &before->tx[call->berth]);
    else if (call->choice == SHOW_SENDING && answer->part.length > 0)
        count_send(shown_of_laptop, &before->tx[call->berth]);
}

static void cover_answered(const struct node *before, const struct node *after, const struct call *call,
                           const struct answer *answer)
{
    switch (call->kind) {
    case FRAME:
        cover_frame_parties(before, &answer->frame);
        break;
    case TICK:
        cover_tick_parties(before, &answer->tick);
        break;
    case TURN:
        cover_turn_parties(before, after, &answer->turn);
        break;
    case CHANGE: case SHOW:
        cover_beside_laptop(before, call, answer);
        break;
    default:
        break;
    }
}

void cover_parties(const struct node *before, const struct node *after, const struct call *call,
                   const struct answer *answer)
{
    bool looks = (call->kind >= FRAME && call->kind <= SHOW) || call->kind == CHANGE;
    if (call->kind == SEND)
        cover_send_parties(before, call, answer->refusal);
    if (call->kind == SET_UP)
        cover_set_up_parties(before, answer->refusal);
    if (looks && (answer->refusal == 1 || call->kind == SHOW))
        cover_party_alone(before, call->kind);
    if (answer->refusal == 0)
        cover_answered(before, after, call, answer);
}
