/*
 * coverage.c - counts which outcomes a run has seen, and in which state.
 */
#include <string.h>

#include "cards.h"
#include "counting.h"
#include "coverage.h"

enum programs { BOTH, ONLY_SCENES, ONLY_EXERCISER };
enum side { OF_NODE, OF_RECEIVE, OF_SEND, OF_BERTH, OF_CARD };
enum { STATES_MAX = BERTHS };

static const struct row {
    enum programs programs;
    enum side side;
    const char *wanted;
    const char *sentence;
} rows[] = {
#define X_FAULT(id, programs, side, states, sentence) { programs, side, states, sentence },
#define X_COUNT(id, programs, side, states, sentence) { programs, side, states, sentence },
#define AS_ROW(id, programs, side, states, sentence) { programs, side, states, sentence },
    NODE_OUTCOMES(AS_ROW) CHANGE_OUTCOMES(AS_ROW) PARTY_OUTCOMES(AS_ROW) FAULTS(AS_OUTCOME_OF_FAULT)
    RECEIVE_OUTCOMES(AS_ROW) SEND_OUTCOMES(AS_ROW) PARTY_SEND_OUTCOMES(AS_ROW) BERTH_OUTCOMES(AS_ROW)
    PARTY_BERTH_OUTCOMES(AS_ROW) COUNTS(AS_OUTCOME_OF_COUNT)
};

static const struct {
    const char *name;
    const char *letters;
    const char *states[STATES_MAX];
} sides[] = {
    [OF_NODE] = { "node", "-", { "seen" } },
    [OF_RECEIVE] = { "receive side", "ioga", { "idle", "overflow", "go", "awaits" } },
    [OF_SEND] = { "send side", "isfwcp", { "idle", "single", "first", "flow", "consec", "in gap" } },
    [OF_BERTH] = { "berth", TEN_BERTHS, { "0", "1", "2", "3", "4", "5", "6", "7", "8", "9" } },
    [OF_CARD] = { "cards", "rtk", { "raised", "to top", "kept" } },
};

static long counts[OUTCOME_COUNT][STATES_MAX];

void count(enum outcome outcome)
{
    counts[outcome][0]++;
}

void count_receive(enum outcome outcome, const struct receive_side *rx)
{
    counts[outcome][rx->state]++;
}

void count_send(enum outcome outcome, const struct send_side *tx)
{
    bool in_gap = tx->state == CONSECUTIVE && tx->gap_left > 0;
    counts[outcome][in_gap ? CONSECUTIVE + 1 : (int)tx->state]++;
}

void count_berth(enum outcome outcome, int berth)
{
    counts[outcome][berth]++;
}

/* One step outside the range of the gaps, in both states that carry them. */
static void cover_gap_fault(enum fault fault, const struct send_side *tx)
{
    if (fault == gap_large && tx->gap == GAP_MAX + 1)
        count(tx->state == AWAITS_FLOW ? gap_129_awaiting : gap_129_consecutive);
    if (fault == gap_left_large && tx->gap_left == GAP_MAX + 1)
        count(gap_left_129);
}

void cover_order(const struct node *before)
{
    enum fault fault = fault_of(before);
    if (fault != no_fault)
        count(fault_area_small + (fault - area_small));
    for (int k = 0; k < BERTHS; k++)
        cover_gap_fault(fault, &before->tx[k]);
    cover_settings_order(before);
}

/* The outcome for too few cards; the one for too many stands behind it. */
static void count_not_ten(enum outcome few, const struct world *world)
{
    count(few + (world->cards_lent > BERTHS));
}

static void cover_frame_refusal(const struct world *world, int identifier, int refusal)
{
    const struct node *before = &world->node;
    switch (refusal) {
    case 1:
        count(frame_refused_1);
        cover_order(before);
        break;
    case 2:
        count(frame_refused_2);
        break;
    case 3:
        count(frame_refused_3);
        break;
    case 12:
        count_not_ten(frame_refused_12_few, world);
        break;
    default:
        count_receive(frame_refused_4, &before->rx[identifier - FROM_BERTH_0]);
        break;
    }
}

static void cover_single(const struct receive_side *rx, const struct frame_answer *answer)
{
    if (answer->word == IGNORED)
        count_receive(single_ignored, rx);
    else
        count_receive(answer->old == 0 ? single_old_0 : single_old_7, rx);
}

static void cover_first(const struct node *before, const struct call *call, const struct frame_answer *answer)
{
    const struct receive_side *rx = &before->rx[answer->berth];
    bool escape = (call->data[0] & 15) == 0 && call->data[1] == 0;
    if (answer->word == IGNORED) {
        count_receive(first_ignored, rx);
    } else if (answer->word == BEGUN) {
        count_receive(answer->old == 0 ? first_old_0 : first_old_7, rx);
        if (answer->number == before->area)
            count_receive(first_of_area, rx);
    } else {
        count_receive(answer->old == 0 ? too_long_old_0 : too_long_old_7, rx);
        if (escape)
            count_receive(too_long_escape, rx);
    }
}

static void cover_consecutive(const struct node *before, const struct frame_answer *answer)
{
    const struct receive_side *rx = &before->rx[answer->berth];
    int block_size = before->set[answer->berth].block_size;
    bool full = rx->taken + 1 == block_size;
    if (answer->word == IGNORED) {
        count_receive(answer->number == 4 ? consecutive_ignored_4 : consecutive_ignored_3, rx);
        return;
    }
    if (answer->word == FAILED) {
        count_receive(consecutive_failed, rx);
        return;
    }
    if (rx->timer == TIMER_END - 1)
        count_receive(take_at_999, rx);
    if (answer->word == DELIVERED)
        count_receive(full ? delivered_full : delivered, rx);
    else if (block_size == 0)
        count_receive(took_no_blocks, rx);
    else
        count_receive(full ? took_full : took, rx);
    if (full)
        cover_full_block(before, answer->berth);
}

bool within(uint32_t value, uint32_t low, uint32_t high)
{
    return value >= low && value <= high;
}

/* The outcomes name the gap too, so one is only counted where the side has that gap now. */
static void cover_stmin(uint8_t stmin, int gap)
{
    static const struct {
        enum outcome outcome;
        uint32_t stmin_low, stmin_high, gap_low, gap_high;
    } rules[] = {
        { stmin_none, 0x00, 0x00, 0, 0 },
        { stmin_one, 0x01, 0x01, 2, 2 },
        { stmin_ticks, 0x02, 0x7E, 3, 127 },
        { stmin_longest, 0x7F, 0x7F, 128, 128 },
        { stmin_unknown_low, 0x80, 0xF0, 128, 128 },
        { stmin_below_ms, 0xF1, 0xF9, 2, 2 },
        { stmin_unknown_high, 0xFA, 0xFF, 128, 128 },
    };
    for (size_t i = 0; i < sizeof rules / sizeof rules[0]; i++)
        if (within(stmin, rules[i].stmin_low, rules[i].stmin_high)
            && within((uint32_t)gap, rules[i].gap_low, rules[i].gap_high))
            count(rules[i].outcome);
}

static void cover_going(const uint8_t *data, const struct send_side *after)
{
    uint8_t block_size = data[1];
    count(block_size == 0 ? going_no_blocks : block_size == 1 ? going_blocks_of_1 : going_blocks);
    cover_stmin(data[2], after->gap);
}

static void cover_flow_control(const struct node *before, const struct node *after, const struct call *call,
                               const struct frame_answer *answer)
{
    const struct send_side *tx = &before->tx[answer->berth];
    if (answer->word == IGNORED) {
        count_send(answer->number == 4 ? flow_ignored_4 : flow_ignored_3, tx);
        return;
    }
    count((enum outcome)(status_0 + (call->data[0] & 15)));
    if (tx->timer == TIMER_END - 1)
        count_send(flow_at_999, tx);
    if (answer->word == GOING) {
        count_send(flow_going, tx);
        cover_going(call->data, &after->tx[answer->berth]);
    } else if (answer->word == WAITING) {
        count_send(flow_waiting, tx);
    } else {
        count_send(answer->number == N_BUFFER_OVFLW ? flow_failed_9 : flow_failed_6, tx);
    }
}

/* What an event of a berth did to the counts that it adds to, by the card before it. */
static void cover_additions(const struct world *before, int berth, struct additions adds)
{
    const struct card *card = &before->cards[berth];
    for (int i = 0; i < COUNT_KINDS; i++)
        if (adds.counts[i])
            counts[card_begun + i][frozen(card) ? 2 : card->counts[i] == COUNT_TOP - 1]++;
}

static void cover_frame(const struct world *world, const struct node *after, const struct call *call,
                        const struct frame_answer *answer)
{
    const struct node *before = &world->node;
    const struct receive_side *rx = &before->rx[answer->berth];
    if (answer->refusal != 0) {
        cover_frame_refusal(world, call->identifier, answer->refusal);
        return;
    }
    cover_additions(world, answer->berth, frame_adds(rx->state, call->data, answer));
    if (call->length == 0) {
        count_receive(ignored_1, rx);
        return;
    }
    switch (call->data[0] >> 4) {
    case 0:
        cover_single(rx, answer);
        break;
    case 1:
        cover_first(before, call, answer);
        break;
    case 2:
        cover_consecutive(before, answer);
        break;
    case 3:
        cover_flow_control(before, after, call, answer);
        break;
    default:
        count_receive(ignored_2, rx);
        break;
    }
}

/* The ends of the range of gaps. */
static void cover_gap(const struct send_side *tx)
{
    if (tx->gap == GAP_MAX)
        count_send(tick_peers_gap_128, tx);
    if (tx->gap_left == GAP_MAX)
        count_send(tick_gap_left_128, tx);
    if (tx->gap_left == 1)
        count_send(tick_gap_left_1, tx);
}

static void cover_tick(const struct world *world, const struct tick_answer *answer)
{
    const struct node *before = &world->node;
    if (answer->refusal == 12) {
        count_not_ten(tick_refused_12_few, world);
        return;
    }
    if (answer->refusal != 0) {
        count(tick_refused_1);
        cover_order(before);
        return;
    }
    for (int k = 0; k < BERTHS; k++) {
        int receive = answer->receive_code[k], send = answer->send_code[k];
        count_receive(receive == 0 ? receive_tick : receive == N_TIMEOUT_A ? receive_tick_2 : receive_tick_4,
                      &before->rx[k]);
        count_send(send == 0 ? send_tick : send == N_TIMEOUT_A ? send_tick_2 : send_tick_3, &before->tx[k]);
        cover_gap(&before->tx[k]);
        cover_additions(world, k, tick_adds(before->rx[k].state, receive, send));
    }
    cover_ranges_kept(before);
}

static void cover_send(const struct node *before, int berth, int refusal)
{
    switch (refusal) {
    case 1:
        count(send_refused_1);
        cover_order(before);
        break;
    case 2:
        count(send_refused_2);
        break;
    case 5:
        count(send_refused_5);
        break;
    case 6:
        count_send(send_refused_6, &before->tx[berth]);
        break;
    case 7:
        count_send(send_refused_7, &before->tx[berth]);
        break;
    case 8:
        count_send(send_refused_8, &before->tx[berth]);
        break;
    case 18:    /* counted among the parties */
        break;
    default:
        count_send(sent, &before->tx[berth]);
        count_receive(sent_beside, &before->rx[berth]);
        break;
    }
}

static void cover_message_handed_over(const struct send_side *tx, const struct send_side *after, bool last)
{
    bool full = tx->sent + 1 == tx->block_size;
    if (tx->timer == TIMER_END - 1)
        count_send(turn_at_999, tx);
    if (tx->state == SINGLE_DUE)
        count_send(turn_single, tx);
    else if (tx->state == FIRST_DUE)
        count_send(turn_first, tx);
    else if (last)
        count_send(full ? turn_last_full : turn_last, tx);
    else
        count_send(full ? turn_full : turn_more, tx);
    if (after->state == CONSECUTIVE && after->gap_left == 0)
        count_send(turn_no_gap, tx);
    if (after->gap_left == GAP_MAX)
        count_send(turn_longest_gap, tx);
}

static void cover_hand_over(const struct node *before, const struct node *after, const struct turn_answer *answer)
{
    int berth = answer->identifier - TO_BERTH_0;
    const struct receive_side *rx = &before->rx[berth];
    const struct send_side *tx = &before->tx[berth];
    if (rx->state != OWES_OVERFLOW && rx->state != OWES_GO) {
        cover_message_handed_over(tx, &after->tx[berth], answer->code == N_OK);
        return;
    }
    count_receive(rx->state == OWES_GO ? turn_go : turn_overflow, rx);
    if (rx->state == OWES_GO)
        cover_go(before, berth);
    count_send(turn_flow_first, tx);
    if (rx->timer == TIMER_END - 1)
        count_receive(turn_flow_at_999, rx);
}

static void cover_turn(const struct world *world, const struct node *after, const struct answer *all)
{
    const struct node *before = &world->node;
    const struct turn_answer *answer = &all->turn;
    switch (answer->refusal) {
    case 0:
        count((enum outcome)(passed_0 + answer->passed_over));
        if (answer->none)
            break;
        cover_hand_over(before, after, answer);
        cover_additions(world, answer->identifier - TO_BERTH_0, turn_adds(all->buffer, answer->code));
        break;
    case 12:
        count_not_ten(turn_refused_12_few, world);
        break;
    case 1:
        count(turn_refused_1);
        cover_order(before);
        break;
    case 2:
        count(turn_refused_2);
        break;
    default:
        count(anything_due(before) ? turn_refused_9_due : turn_refused_9_none);
        break;
    }
}

static void cover_set_up(const struct node *before, int refusal)
{
    if (refusal != 0)
        count(in_order(before) ? set_up_refused_good : set_up_refused_bad);
    else
        count(in_order(before) ? set_up_good : set_up_bad);
}

static void cover_show(const struct world *world, const struct call *call, size_t length)
{
    const struct node *node = &world->node;
    if (call->berth >= BERTHS) {
        count(show_no_berth);
    } else if (!in_order(node)) {
        count(show_bad_node);
    } else if (!has_ten_areas(node, world->incoming)) {
        if (has_ten_areas(node, world->outgoing))
            count(show_incoming);
    } else if (!has_ten_areas(node, world->outgoing)) {
        count(show_outgoing);
    } else if (call->choice == SHOW_ARRIVED) {
        count_receive(length > 0 ? show_arrived : show_no_arrived, &node->rx[call->berth]);
    } else {
        count_send(length > 0 ? show_sending : show_no_sending, &node->tx[call->berth]);
    }
}

static void cover_needs(uint64_t length)
{
    if (length == 0)
        count(needs_zero);
    else if (length <= SINGLE_MAX)
        count(needs_single);
    else
        count(length <= AREA_MAX ? needs_more : needs_none);
}

static void cover_card(const struct world *world, const struct call *call)
{
    bool shown = call->kind == CARD;
    if (shown)
        count(frozen(&world->cards[call->berth]) ? card_shown_frozen : card_shown);
    if (call->berth >= world->cards_lent)
        count(shown ? card_shown_unlent : count_loaded_unlent);
}

/* The calls that take no cards must be seen beside a list that is not ten long. */
static void cover_calls_without_cards(const struct world *world, const struct call *call,
                                      const struct answer *answer)
{
    if (world->cards_lent == BERTHS || answer->refusal != 0)
        return;
    if (call->kind == SEND)
        count(sent_without_cards);
    else if (call->kind == SHOW && answer->part.length > 0)
        count(shown_without_cards);
    else if (call->kind == SET_UP)
        count(set_up_without_cards);
}

void cover(const struct world *before, const struct world *world, const struct call *call,
           const struct answer *answer)
{
    const struct node *node = &before->node;
    cover_calls_without_cards(before, call, answer);
    follow_settings(node, &world->node, call->kind);
    cover_parties(node, &world->node, call, answer);
    switch (call->kind) {
    case BAD:
        count(record_bad);
        break;
    case FRAME:
        cover_frame(before, &world->node, call, &answer->frame);
        break;
    case TICK:
        cover_tick(before, &answer->tick);
        break;
    case SEND:
        cover_send(node, call->berth, answer->refusal);
        break;
    case TURN:
        cover_turn(before, &world->node, answer);
        break;
    case HEADER:
    case SET_UP:
        cover_set_up(node, answer->refusal);
        break;
    case SHOW:
        cover_show(world, call, answer->part.length);
        break;
    case NEEDS:
        cover_needs(call->asked);
        break;
    case CHANGE:
        cover_change(before, call, answer->refusal);
        break;
    case CARD:
    case LOAD_COUNT:
        cover_card(world, call);
        break;
    default:
        break;
    }
}

void cover_short(void)
{
    count(record_short);
}

void cover_cards(void)
{
    count(cards_printed);
}

/* In the exerciser every card starts at zero, so that none comes near the top. */
static bool elsewhere(const struct row *row, int state, enum program program)
{
    if (program == SCENES)
        return row->programs == ONLY_EXERCISER;
    return row->programs == ONLY_SCENES || (row->side == OF_CARD && state > 0);
}

static const char *standing(const struct row *row, int state, enum program program)
{
    if (strchr(row->wanted, sides[row->side].letters[state]) == NULL)
        return "impossible";
    return elsewhere(row, state, program) ? "elsewhere" : "wanted";
}

void write_coverage(FILE *file, enum program program)
{
    for (int i = 0; i < OUTCOME_COUNT; i++) {
        const struct row *row = &rows[i];
        const char *letters = sides[row->side].letters;
        for (int state = 0; letters[state] != 0; state++)
            fprintf(file, "%ld\t%s\t%s\t%s\t%s\n", counts[i][state], standing(row, state, program),
                    sides[row->side].name, row->sentence, sides[row->side].states[state]);
    }
}
