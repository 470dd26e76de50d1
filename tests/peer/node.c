/*
 * node.c - set-up, send, show and the frames needed.
 */
#include <string.h>

#include "mutants.h"
#include "node.h"
#include "party_mistakes.h"
#include "settings_mistakes.h"

/* Only asked of a node in order: elsewhere A may be anything. */
bool has_ten_areas(const struct node *node, struct bytes store)
{
    return store.length == (size_t)BERTHS * (size_t)node->area;
}

static bool settings_allowed(uint32_t area, uint32_t block_size, uint32_t stmin)
{
    return area >= AREA_MIN && area <= AREA_MAX && block_size <= BLOCK_MAX && stmin_allowed(stmin);
}

int set_up(struct node *node, uint32_t area, uint32_t block_size, uint32_t stmin)
{
    block_size = rule(block_size, 06b, block_size % 256);
    bool allowed = settings_allowed(area, block_size, stmin) && !(mistake(06e) && !in_order(node));
    if (!allowed && mistake(W3c6))
        settings_of_refused_set_up(node, block_size, stmin);
    if (!allowed && !mistake(06a))
        return 10;

    struct node before = *node;
    if (!allowed) {
        memset(node, 0, sizeof *node);
        return 10;
    }
    struct berth_settings given = { (int)block_size, (int)rule(stmin, W2f4, stmin + 1) };
    *node = (struct node){
        .area = (int)area,
        .served = rule(BERTHS - 1, 06c, before.served),
    };
    for (int k = 0; k < BERTHS; k++)
        node->set[k] = filled_at_set_up(&before, k, given);
    for (int k = 0; k < BERTHS && mistake(06d); k++)
        node->rx[k].last = before.rx[k].last;
    return 0;
}

static int send_refusal(const struct node *node, struct bytes outgoing, int berth, uint32_t party, size_t length)
{
    if (!in_order_for(node, (uint32_t)berth, mistake(W3e9)))
        return 1;
    if (!has_ten_areas(node, outgoing))
        return 2;
    if (berth >= BERTHS)
        return 5;
    if (party > LAPTOP)
        return 18;
    bool busy = node->tx[berth].state != TX_IDLE || (mistake(29c) && node->rx[berth].state != RX_IDLE);
    if (mistake(29a) && busy)
        return 8;
    if (length == 0)
        return 6;
    if (length > (size_t)node->area)
        return 7;
    return busy ? 8 : 0;
}

int send_message(struct node *node, struct bytes outgoing, int berth, uint32_t party, struct bytes message)
{
    if (sends_by_mistake())
        return mistaken_send(node, outgoing, (struct sending){ (uint32_t)berth, party, message });
    int refusal = send_refusal(node, outgoing, berth, party, message.length);
    if (refusal != 0)
        return refusal;

    uint8_t *area = outgoing.at + (size_t)berth * (size_t)node->area;
    if (mistake(29b))
        memset(area, 0, (size_t)node->area);
    memcpy(area, message.at, message.length);
    node->tx[berth] = (struct send_side){
        .state = message.length <= SINGLE_MAX ? SINGLE_DUE : FIRST_DUE,
        .length = (int)message.length,
        .party = (int)party,
    };
    return 0;
}

static int shown_length(const struct node *node, int berth, enum choice choice)
{
    const struct receive_side *rx = &node->rx[berth];
    const struct send_side *tx = &node->tx[berth];
    if (choice == SHOW_ARRIVED)
        return mistake(30c) && rx->got > 0 ? rx->got : rx->last;
    if (mistake(30b) && (tx->state == SINGLE_DUE || tx->state == FIRST_DUE))
        return 0;
    return rule(tx->length, 30d, tx->position);
}

struct bytes show_message(const struct node *node, struct bytes incoming, struct bytes outgoing,
                          int berth, enum choice choice)
{
    struct bytes chosen = choice == SHOW_ARRIVED ? incoming : outgoing;
    struct bytes other = rule(choice == SHOW_ARRIVED ? outgoing : incoming, 30a, chosen);
    struct bytes empty = { chosen.at, 0 };
    if (berth >= BERTHS || (!in_order_for(node, (uint32_t)berth, mistake(W3e7)) && !mistake(02a)))
        return empty;
    if (!has_ten_areas(node, chosen) || !has_ten_areas(node, other))
        return empty;
    return (struct bytes){
        .at = chosen.at + (size_t)berth * (size_t)node->area,
        .length = (size_t)shown_length(node, berth, choice),
    };
}

int frames_needed(uint64_t length)
{
    length = rule(length, 31c, length & 0xFFFF);
    if (length < rule(1, 31b, 0) || length > rule(AREA_MAX, 31a, AREA_MAX + 1))
        return 0;
    if (length <= SINGLE_MAX)
        return 1;
    return 1 + ((int)length - FIRST_BYTES + 6) / 7;
}
