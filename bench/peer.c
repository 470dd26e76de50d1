/*
 * peer.c - crates/bench once more, over the node of tests/peer.
 *
 * The same words, the same states, one call, the same sum. The calls stand in
 * files of their own, so that the compiler leaves them calls.
 */
#include <inttypes.h>
#include <stdio.h>
#include <stdlib.h>
#include <string.h>

#include "../tests/peer/node.h"

enum { WORDS = 6, SHORT_BUFFER = 7, LONG_FRAME = 9, BAD_STMIN = 0xFA };

/* The third letter tells the calls apart, but for a change, which begins with a c. */
enum call { FRAME = 'a', TICK = 'c', SEND = 'n', TURN = 'r', SHOW = 'o', SET_UP = 't', CHANGE = 'h' };

struct load {
    char call, situation;
    int area, length, busy;
    struct bytes incoming, outgoing, message, buffer;
    int number, came; /* the frame's identifier, the berth of send, show and change, or the STmin of a set-up */
    uint8_t payload[LONG_FRAME];
};

static uint8_t incoming_store[BERTHS * AREA_MAX];
static uint8_t outgoing_store[BERTHS * AREA_MAX];
static uint8_t message_bytes[AREA_MAX];
static uint8_t buffer_bytes[FRAME_BYTES];
static struct card ten_cards[BERTHS];

static int of_node(const struct node *node)
{
    return node->served + node->rx[BERTHS - 1].last;
}

/* The party whose message its first berth sends, which is the one that a send is asked for. */
static int of_sender(const struct node *node)
{
    return node->tx[0].state == TX_IDLE ? 0 : node->tx[0].party;
}

/* The settings of its first berth, which is the one that a change is asked for. */
static int of_settings(const struct node *node)
{
    return 2 * node->set[0].block_size + node->set[0].stmin;
}

/* A card's counts in their order, each worth twice the next. */
static uint64_t of_card(const struct card *card)
{
    uint64_t all = 0;
    for (int kind = 0; kind < COUNT_KINDS; kind++)
        all = 2 * all + card->counts[kind];
    return all;
}

/* The lent cards after a call, each worth three times the next. */
static uint64_t of_cards(void)
{
    uint64_t all = 0;
    for (int berth = 0; berth < BERTHS; berth++)
        all = 3 * all + of_card(&ten_cards[berth]);
    return all;
}

static int of_frame(struct frame_answer a)
{
    return a.refusal + a.berth + a.old + a.number + a.party;
}

static int of_tick(struct tick_answer a)
{
    return a.refusal + a.receive_code[BERTHS - 1] + a.send_code[BERTHS - 1] + a.party[BERTHS - 1];
}

static int of_turn(struct turn_answer a)
{
    return a.refusal + a.identifier + a.code + a.passed_over + a.party;
}

static int middle(int length)
{
    return length / 2 < FIRST_BYTES ? FIRST_BYTES : length / 2;
}

static struct receive_side receiving(int length)
{
    return (struct receive_side){ .state = AWAITS, .total = length, .got = middle(length), .sn = 1 };
}

/* The laptop's message. */
static struct send_side sending(int length)
{
    return (struct send_side){
        .state = CONSECUTIVE, .length = length, .position = middle(length), .sn = 1, .block_size = 8, .party = LAPTOP,
    };
}

static void build_node(const struct load *l, struct node *node)
{
    *node = (struct node){ .area = l->area, .served = BERTHS - 1 };
    for (int berth = 0; berth < BERTHS; berth++)
        node->set[berth].block_size = 8;
    if (l->situation == 'i')
        return;
    for (int berth = 0; berth < l->busy && berth < BERTHS; berth++) {
        node->rx[berth] = receiving(l->length);
        node->tx[berth] = sending(l->length);
    }
    if (l->call == SEND && l->situation == 'b') {
        node->rx[0] = receiving(l->length);
        node->tx[0] = (struct send_side){ .state = TX_IDLE };
    }
    if (l->call == CHANGE && l->situation == 'b') {
        node->rx[0] = (struct receive_side){ .state = RX_IDLE };
        node->tx[0] = sending(l->length);
    }
    if (l->call == TICK && l->situation == 'r') {
        node->rx[BERTHS - 1] = receiving(l->length);
        node->tx[BERTHS - 1] = sending(l->length);
        node->tx[BERTHS - 1].gap_left = 1;
        node->tx[BERTHS - 1].timer = 1;
    }
}

static int given(char call, bool refused)
{
    switch (call) {
    case FRAME: return FROM_BERTH_0;
    case SHOW: return refused ? BERTHS : 0;
    case SET_UP: return refused ? BAD_STMIN : 0;
    default: return 0;
    }
}

static void lend(struct load *l)
{
    bool refused = l->situation == 'r';
    size_t size = (size_t)l->area * BERTHS;
    for (int i = 0; i < AREA_MAX; i++)
        message_bytes[i] = (uint8_t)i;
    l->incoming = (struct bytes){ incoming_store, size };
    l->outgoing = (struct bytes){ outgoing_store, size };
    l->message = (struct bytes){ message_bytes, (size_t)l->length };
    l->buffer = (struct bytes){ buffer_bytes, refused ? SHORT_BUFFER : FRAME_BYTES };
    l->number = given(l->call, refused);
    l->came = refused ? LONG_FRAME : FRAME_BYTES;
    memcpy(l->payload, l->situation == 'i' ? "\7\1\2\3\4\5\6\7" : "\41\1\2\3\4\5\6\7", LONG_FRAME);
}

/* A send and a change answer their refusal, else the berth, which is 0. */
static int made(const struct load *l, struct node *node)
{
    struct cards cards = { ten_cards, BERTHS };
    switch (l->call) {
    case FRAME: return of_frame(frame_came(node, l->incoming, cards, l->number, l->payload, l->came));
    case TICK: return of_tick(tick(node, cards));
    case SEND: return send_message(node, l->outgoing, l->number, LAPTOP, l->message) + of_sender(node);
    case TURN: return of_turn(call_for_frame(node, l->outgoing, cards, l->buffer));
    case SHOW: return (int)show_message(node, l->incoming, l->outgoing, l->number, SHOW_SENDING).length;
    case CHANGE: return change(node, (uint32_t)l->number, STMIN, 5) + of_settings(node);
    default: return set_up(node, (uint32_t)l->area, 8, (uint32_t)l->number);
    }
}

int main(int argc, char **argv)
{
    if (argc != WORDS)
        return 2;
    struct load load = {
        .call = argv[1][0] == 'c' ? CHANGE : argv[1][2],
        .situation = argv[2][0],
        .area = atoi(argv[3]),
        .length = atoi(argv[4]),
        .busy = atoi(argv[5]),
    };
    struct node node;
    lend(&load);
    build_node(&load, &node);
    int answer = made(&load, &node);
    printf("%016" PRIx64, (uint64_t)(answer + of_node(&node)) + of_cards());
    return 0;
}
