/*
 * generate_parties.c - scenes streams of sends for both parties, kept and reported in every way, request W6.
 *
 * Each odd send has a look at its berth before it and behind it. Between them
 * messages go on at several berths, end in each of their ways and are loaded;
 * and now and then a party alone puts the node out of order, or a set-up ends
 * all. tests/parties.py reads the law off the lines, so nothing else is odd:
 * ten cards and stores of the right length are lent throughout.
 */
#include <limits.h>

#include "generate.h"
#include "generate_loads.h"

enum { MESSAGE_STEPS = 40, LONG_ENOUGH = 60, SHORT_BUFFER = 7 };

static void look_at(struct generator *g, int berth)
{
    write_record(g, (const uint8_t[RECORD_BYTES]){ STATE, (uint8_t)berth });
}

static void look_at_all(struct generator *g)
{
    for (int k = 0; k < BERTHS; k++)
        look_at(g, k);
}

static void load_sides(struct generator *g, int berth)
{
    struct receive_side rx = some_receive_side(g, berth);
    struct send_side tx = some_send_side(g);
    emit_receive_side(g, berth, &rx);
    emit_send_side(g, berth, &tx);
    look_at(g, berth);
}

static void send_some(struct generator *g, int berth)
{
    int area = g->model.node.area, most = area < LONG_ENOUGH ? area : LONG_ENOUGH;
    emit_send(g, berth, chance(&g->dice, 30) ? between(&g->dice, 1, SINGLE_MAX) : between(&g->dice, AREA_MIN, most));
}

/* A message from its start to its end, whichever that is; other berths may be served between its frames. */
static void message_goes(struct generator *g, int berth)
{
    if (g->model.node.tx[berth].state == TX_IDLE)
        send_some(g, berth);
    for (int i = 0; i < MESSAGE_STEPS && g->model.node.tx[berth].state != TX_IDLE; i++) {
        advance_send(g, berth);
        if (chance(&g->dice, 30))
            look_at(g, berth);
    }
}

static void go_on_at_several(struct generator *g)
{
    for (int steps = between(&g->dice, 5, 25); steps > 0; steps--) {
        int berth = roll(&g->dice, BERTHS);
        advance_send(g, berth);
        if (chance(&g->dice, 20))
            look_at(g, berth);
    }
}

/* Sides of several berths whose time is up with the next tick, in each state that has a code. */
static void time_out_several(struct generator *g)
{
    for (int berths = between(&g->dice, 1, BERTHS); berths > 0; berths--) {
        int berth = roll(&g->dice, BERTHS);
        struct receive_side rx = some_receive_side(g, berth);
        struct send_side tx = some_send_side(g);
        rx.timer = tx.timer = TIMER_END - 1;
        tx.gap_left = 0;
        if (chance(&g->dice, 40))
            emit_receive_side(g, berth, &rx);
        if (chance(&g->dice, 80))
            emit_send_side(g, berth, &tx);
    }
    emit_tick(g);
    look_at_all(g);
}

/* The peer ends what awaits its flow control. */
static void fail(struct generator *g, int berth)
{
    struct send_side tx = some_send_side(g);
    while (tx.state != AWAITS_FLOW)
        tx = some_send_side(g);
    emit_send_side(g, berth, &tx);
    if (chance(&g->dice, 40))
        emit_flow_control(g, berth, 1, 0, 0);
    emit_flow_control(g, berth, chance(&g->dice, 50) ? 2 : between(&g->dice, 3, 15), 0, 0);
    look_at(g, berth);
}

/* A reception that fails with 5, which is no report of the send side beside it. */
static void fail_to_receive(struct generator *g, int berth)
{
    struct receive_side rx = some_receive_side(g, berth);
    while (rx.state != AWAITS)
        rx = some_receive_side(g, berth);
    emit_receive_side(g, berth, &rx);
    uint8_t wrong_sn = (uint8_t)(0x20 + (rx.sn + 1) % 16);
    emit_frame(g, FROM_BERTH_0 + berth, (const uint8_t[FRAME_BYTES]){ wrong_sn }, FRAME_BYTES);
}

/* The node's own as they are; ten berths alike, so that they may be loaded beside any state that takes no blocks. */
static void load_own(struct generator *g)
{
    const struct node *node = &g->model.node;
    int most = 0;
    for (int k = 0; k < BERTHS; k++)
        most = node->rx[k].taken > most ? node->rx[k].taken : most;
    write_record(g, (const uint8_t[RECORD_BYTES]){
        LOAD_NODE, (uint8_t)node->served, (uint8_t)(node->area >> 8), (uint8_t)node->area, (uint8_t)(most + 1), 5,
    });
}

/* What the send side has no part in: messages that arrive, ignored frames, changes, shows and refused calls. */
static void do_something_else(struct generator *g, int berth)
{
    const uint8_t shows[RECORD_BYTES] = { SHOW, (uint8_t)berth, SHOW_SENDING };
    const uint8_t short_turn[RECORD_BYTES] = { TURN, SHORT_BUFFER };
    for (int i = 0; i < 3; i++)
        advance_receive(g, berth);
    fail_to_receive(g, berth);
    emit_ignored(g, berth);
    emit_some_change(g, berth);
    load_own(g);
    write_record(g, shows);
    write_record(g, short_turn);
    emit_frame(g, FROM_BERTH_0 + BERTHS, (const uint8_t[FRAME_BYTES]){ 1, 1 }, 2);
    look_at(g, berth);
}

/* The same A, so that the stores that are lent fit. */
static void set_up_again(struct generator *g, bool refused)
{
    int area = refused ? AREA_MIN - 1 : g->model.node.area;
    write_record(g, (const uint8_t[RECORD_BYTES]){ SET_UP, 0, 0, (uint8_t)(area >> 8), (uint8_t)area, 0, 2, 0, 5 });
    look_at_all(g);
}

static void some_stretch(struct generator *g, int berth)
{
    switch (roll(&g->dice, 12)) {
    case 0: case 1:
        load_sides(g, berth);
        break;
    case 2: case 3: case 4:
        message_goes(g, berth);
        break;
    case 5: case 6:
        go_on_at_several(g);
        break;
    case 7:
        time_out_several(g);
        break;
    case 8:
        fail(g, berth);
        break;
    case 9:
        do_something_else(g, berth);
        break;
    case 10:
        spoil_one_party(g);
        break;
    default:
        set_up_again(g, chance(&g->dice, 80));
        break;
    }
}

void generate_parties(uint64_t seed, int sends)
{
    struct generator g = {
        .dice = { seed }, .card_dice = { seed }, .set_dice = { ~seed }, .party_dice = { ~seed }, .program = SCENES,
        .left = LONG_MAX, .plain = true,
    };
    open_world(&g.model, SCENES);
    emit_good_header(&g, seed);
    for (int i = 0; i < sends; i++) {
        int berth = roll(&g.dice, BERTHS);
        some_stretch(&g, berth);
        look_at(&g, berth);
        emit_odd_send(&g, berth);
        look_at(&g, berth);
    }
    close_world(&g.model);
}
