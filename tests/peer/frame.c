/*
 * frame.c - the call "a frame came in": refusals, ignored frames and the four kinds.
 *
 * What it stores needs no test. In a node in order no byte can land outside
 * its area: a single frame holds 7 bytes at most and A is at least 8, a first
 * frame stores 6 bytes of at least 8, and a consecutive frame stores no more
 * than are missing from a total that is at most A.
 */
#include <string.h>

#include "cards.h"
#include "mutants.h"
#include "settings_mistakes.h"

enum kind { SINGLE, FIRST, CONSECUTIVE_FRAME, FLOW_CONTROL };

struct arrival {
    struct node *node;
    struct receive_side *rx;
    struct send_side *tx;
    int block_size;         /* the berth's own */
    uint8_t *area;          /* the berth's part of the incoming store */
    const uint8_t *data;
    int length;
};

static int low_nibble(const struct arrival *a)
{
    return a->data[0] & 15;
}

static struct frame_answer answer(int old, enum word word, int number)
{
    return (struct frame_answer){ .old = old, .word = word, .number = number };
}

static struct frame_answer ignored(struct arrival *a, int number)
{
    if (mistake(11a) && number == 3 && a->data[0] >> 4 <= FIRST)
        *a->rx = (struct receive_side){ .last = a->rx->last };
    if (mistake(11b))
        a->rx->timer = 0;
    if (mistake(W13g3))
        a->tx->timer = 0;
    return answer(0, IGNORED, number);
}

/* A reception that a new message cuts off is reported in the new frame's answer. */
static int old_code(const struct receive_side *rx)
{
    return rx->state == OWES_GO || rx->state == AWAITS ? N_UNEXP_PDU : 0;
}

static struct frame_answer single_came(struct arrival *a)
{
    int length = low_nibble(a) & rule(15, 08b, 7);
    bool fits = a->length == FRAME_BYTES || a->length == length + 1 || (mistake(08c) && a->length > length);
    if (length < rule(1, 08a, 0) || length > SINGLE_MAX || !fits)
        return ignored(a, 3);

    bool owed_overflow = a->rx->state == OWES_OVERFLOW;
    int old = mistake(09b) && owed_overflow ? N_UNEXP_PDU : old_code(a->rx);
    memcpy(a->area, a->data + 1, (size_t)rule(length, 09a, a->length - 1));
    *a->rx = (struct receive_side){
        .state = mistake(09c) && owed_overflow ? OWES_OVERFLOW : RX_IDLE,
        .last = length,
    };
    if (mistake(19b))
        *a->tx = (struct send_side){ .state = TX_IDLE };
    return answer(old, DELIVERED, length);
}

/* The announced length, or 0 where the frame has no length that the paper allows. */
static uint32_t announced_length(const struct arrival *a)
{
    if (a->length != FRAME_BYTES && !mistake(10a))
        return 0;
    uint32_t length = (uint32_t)low_nibble(a) * 256 + a->data[1];
    if (length >= rule(1, 10d, AREA_MIN))
        return length >= AREA_MIN ? length : 0;
    uint32_t escape = (uint32_t)a->data[2] << 24 | (uint32_t)a->data[3] << 16
                    | (uint32_t)a->data[4] << 8 | a->data[5];
    escape = rule(escape, 10c, escape & 0xFFFF);
    return escape > rule(AREA_MAX, 10b, AREA_MAX - 1) ? escape : 0;
}

static struct frame_answer too_long(struct arrival *a)
{
    int old = rule(old_code(a->rx), 12a, 0);
    if (mistake(12d) && a->rx->state == OWES_OVERFLOW)
        old = N_UNEXP_PDU;
    if (mistake(12c))
        memcpy(a->area, a->data + 2, FIRST_BYTES);
    *a->rx = (struct receive_side){
        .state = OWES_OVERFLOW,
        .timer = rule(0, 20a, a->rx->timer),
        .last = rule(a->rx->last, 12b, 0),
    };
    return answer(old, TOO_LONG, 0);
}

static struct frame_answer first_came(struct arrival *a)
{
    uint32_t length = announced_length(a);
    if (length == 0)
        return ignored(a, 3);
    uint32_t most = (uint32_t)a->node->area;
    if (length > most && mistake(W11b3))
        return (struct frame_answer){ .refusal = 11 };
    if (length > rule(most, 13b, most - 1))
        return too_long(a);

    int old = old_code(a->rx);
    memcpy(a->area, a->data + 2, FIRST_BYTES);
    *a->rx = (struct receive_side){
        .state = OWES_GO,
        .total = (int)length,
        .got = FIRST_BYTES,
        .sn = 1,
        .timer = rule(0, 20a, a->rx->timer),
        .last = rule(0, 13a, a->rx->last),
    };
    return answer(old, BEGUN, (int)length);
}

/* With BS 0 there are no blocks: nothing is counted and none is ever full. */
static bool fills_block(const struct receive_side *rx, int block_size)
{
    return block_size > rule(0, 03b, 1) && rx->taken + 1 == block_size;
}

static struct frame_answer wrong_sn(struct arrival *a, int missing)
{
    struct receive_side *rx = a->rx;
    if (mistake(16b))
        memcpy(a->area + rx->got, a->data + 1, (size_t)(missing < SINGLE_MAX ? missing : SINGLE_MAX));
    if (!mistake(16a))
        *rx = (struct receive_side){ .state = RX_IDLE, .last = rule(0, 16c, rx->got) };
    return answer(rule(0, 20e, N_UNEXP_PDU), FAILED, N_WRONG_SN);
}

/* For mutants only: how many of seven bytes the area has room for, and who still refuses with 11. */
static int room_up_to_seven(const struct arrival *a)
{
    int room = a->node->area - a->rx->got;
    return room < SINGLE_MAX ? room : SINGLE_MAX;
}

static bool refused_11(const struct arrival *a, int count)
{
    return (mistake(W11b1) && room_up_to_seven(a) < SINGLE_MAX)
        || (mistake(W11b2) && a->rx->got + count == a->node->area);
}

/* Stores the next bytes of a consecutive frame that has passed every test. */
static struct frame_answer take(struct arrival *a, int missing)
{
    struct receive_side *rx = a->rx;
    int count = missing < rule(SINGLE_MAX, 15c, 0) ? missing : SINGLE_MAX;
    if (refused_11(a, count))
        return (struct frame_answer){ .refusal = 11 };
    count = rule(count, W11a1, room_up_to_seven(a));
    for (int i = 0; i < count; i++)
        a->area[rx->got + i] = a->data[1 + i];
    bool full = fills_block(rx, a->block_size);
    if (missing <= SINGLE_MAX && !(mistake(17a) && full)) {
        int total = rx->total;
        *rx = (struct receive_side){ .state = RX_IDLE, .last = total };
        return answer(0, DELIVERED, total);
    }
    rx->got += count;
    rx->sn = mistake(17b) && full ? 1 : (rx->sn + 1) % 16;
    rx->timer = (mistake(17d) && full) || mistake(W13g2) ? rx->timer : 0;
    if (a->block_size != 0 || mistake(03a))
        rx->taken++;
    if (full) {
        rx->state = OWES_GO;
        rx->taken = rule(0, 17c, rx->taken - 1);
    }
    return answer(0, TOOK, 0);
}

static struct frame_answer consecutive_came(struct arrival *a)
{
    struct receive_side *rx = a->rx;
    int missing = rx->total - rx->got;
    bool filled_up = a->length == FRAME_BYTES && (missing >= SINGLE_MAX || !mistake(15b));
    bool cut = missing <= SINGLE_MAX && (a->length == missing + 1 || (mistake(15a) && a->length > missing));
    bool fits = filled_up || cut;
    bool right_sn = low_nibble(a) == rx->sn;

    if (rx->state != AWAITS && !(mistake(14c) && rx->state == OWES_GO))
        return ignored(a, mistake(14b) && !fits ? 3 : 4);
    if (!fits && (right_sn || !mistake(14a)))
        return ignored(a, 3);
    if (!right_sn)
        return wrong_sn(a, missing);
    return take(a, missing);
}

static struct frame_answer sending_failed(struct arrival *a, int code)
{
    struct frame_answer failed = answer(0, FAILED, code);
    failed.party = a->tx->party;
    *a->tx = (struct send_side){ .state = TX_IDLE };
    return failed;
}

/* For a mutant only: what goes out in the berth's own go. */
static uint8_t own_stmin(const struct arrival *a)
{
    return (uint8_t)a->node->set[a->rx - a->node->rx].stmin;
}

static struct frame_answer flow_control_obeyed(struct arrival *a)
{
    struct send_side *tx = a->tx;
    switch (low_nibble(a)) {
    case 0:
        tx->state = CONSECUTIVE;
        tx->block_size = rule(a->data[1], W3a10, a->block_size);
        tx->gap = gap_of(rule(a->data[2], W3a11, own_stmin(a)));
        tx->gap_left = rule(rule(0, W2g5, tx->gap > 0), W2g6, tx->gap);
        tx->sn = rule(tx->sn, 18f, 1);
        tx->timer = rule(0, 18e, tx->timer);
        if (mistake(19a))
            a->rx->timer = 0;
        return answer(0, GOING, 0);
    case 1:
        tx->timer = mistake(18d) || (mistake(W13g1) && tx->timer == TIMER_END - 1) ? tx->timer : 0;
        tx->block_size = rule(tx->block_size, 18c, a->data[1]);
        tx->gap = rule(tx->gap, 18c, gap_of(a->data[2]));
        return answer(0, WAITING, 0);
    case 2:
        return sending_failed(a, N_BUFFER_OVFLW);
    default:
        return sending_failed(a, N_INVALID_FS);
    }
}

static struct frame_answer flow_control_came(struct arrival *a)
{
    int status = low_nibble(a);
    bool awaited = a->tx->state == AWAITS_FLOW;
    bool fits = a->length >= 3 || (mistake(18b) && (status == 1 || status == 2));
    if (mistake(20b) && status == 2)
        awaited = a->tx->state != TX_IDLE;
    if (!awaited)
        return ignored(a, mistake(18a) && !fits ? 3 : 4);
    if (!fits)
        return ignored(a, 3);
    return flow_control_obeyed(a);
}

static bool known(int identifier)
{
    return identifier >= FROM_BERTH_0 && identifier < FROM_BERTH_0 + BERTHS;
}

/* Whether the list will do: ten cards, but for the mutants that ask for less. */
static bool cards_lent(struct cards cards, int identifier, int length)
{
    if (mistake(W1g5) && known(identifier))
        return cards.length > (size_t)(identifier - FROM_BERTH_0);
    return has_ten_cards(cards) || mistake(W1g1) || (mistake(W1g7) && !known(identifier))
        || (mistake(W1g8) && length > FRAME_BYTES) || (mistake(W1g14) && length == 0);
}

/* For a mutant only: whether what is missing would leave the area, as in no node that is in order. */
static bool lands_outside(const struct node *node, int identifier)
{
    if (!known(identifier))
        return false;
    const struct receive_side *rx = &node->rx[identifier - FROM_BERTH_0];
    return rx->state == AWAITS && rx->total > node->area;
}

static int frame_refusal(const struct node *node, struct bytes incoming, struct cards cards,
                         int identifier, int length)
{
    bool lent = cards_lent(cards, identifier, length);
    uint32_t berth = (uint32_t)(identifier - FROM_BERTH_0);
    if (mistake(W1g9) && !lent)
        return 12;
    if (!in_order_for(node, berth, mistake(W3e8)) && !(mistake(02b) && !has_ten_areas(node, incoming)))
        return rule(1, W11d1, lands_outside(node, identifier) ? 11 : 1);
    if (mistake(W1g6) && !lent)
        return 12;
    if (!has_ten_areas(node, incoming))
        return 2;
    if (!lent)
        return rule(12, W11c1, 11);
    if (mistake(07c) && length > FRAME_BYTES)
        return 4;
    if (!known(identifier))
        return 3;
    if (length > FRAME_BYTES)
        return 4;
    return 0;
}

static struct frame_answer frame_answered(struct arrival *a)
{
    if (a->length == 0)
        return ignored(a, 1);
    switch (a->data[0] >> 4) {
    case SINGLE:
        return single_came(a);
    case FIRST:
        return first_came(a);
    case CONSECUTIVE_FRAME:
        return consecutive_came(a);
    case FLOW_CONTROL:
        return flow_control_came(a);
    default:
        return ignored(a, 2);
    }
}

struct frame_answer frame_came(struct node *node, struct bytes incoming, struct cards cards, int identifier,
                               const uint8_t *data, int length)
{
    int refusal = frame_refusal(node, incoming, cards, identifier, length);
    if (mistake(07a) && refusal == 3 && length == 0)
        return answer(0, IGNORED, 1);
    if (mistake(07b) && refusal == 4 && data[0] >> 4 > FLOW_CONTROL)
        refusal = 0;
    int berth = identifier - FROM_BERTH_0;
    if (mistake(W1h1) && refusal == 4)
        cards.at[berth].counts[count_too_long]++;
    if (refusal != 0)
        return (struct frame_answer){ .refusal = refusal };

    enum receive_state before = node->rx[berth].state;
    struct arrival a = {
        .node = node,
        .rx = &node->rx[berth],
        .tx = &node->tx[berth],
        .block_size = block_size_of_blocks(node, berth),
        .area = incoming.at + (size_t)berth * (size_t)node->area,
        .data = data,
        .length = length,
    };
    struct frame_answer result = frame_answered(&a);
    result.berth = berth;
    for (int k = 0; k < BERTHS && mistake(W13f2); k++)
        node->rx[k].timer = 0;
    add_to_card(cards, berth, frame_adds(before, data, &result));
    return result;
}
