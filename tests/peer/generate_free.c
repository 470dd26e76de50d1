/*
 * generate_free.c - scenes streams in which every berth comes free, request W13.
 *
 * One loaded node after the other, in order, with ten cards and stores of the
 * right length. 1,128 ticks pass, 1,000 and the longest gap, and everything is
 * looked at before them and behind them, the states also before the last one.
 * Most nodes have no other call between the ticks; in some the berths that are
 * not left alone go on.
 */
#include <limits.h>

#include "generate.h"
#include "generate_loads.h"

enum { FREE_TICKS = TIMER_END + GAP_MAX, SMALL_AREA = 200 };

static void write_tick(struct generator *g)
{
    write_record(g, (const uint8_t[RECORD_BYTES]){ TICK });
}

static void look_at_states(struct generator *g)
{
    for (int k = 0; k < BERTHS; k++)
        write_record(g, (const uint8_t[RECORD_BYTES]){ STATE, (uint8_t)k });
}

static void look_at_everything(struct generator *g)
{
    look_at_states(g);
    write_record(g, (const uint8_t[RECORD_BYTES]){ NODE });
    for (int k = 0; k < BERTHS; k++) {
        write_record(g, (const uint8_t[RECORD_BYTES]){ CARD, (uint8_t)k });
        for (int choice = 0; choice < 2 && g->model.area <= SMALL_AREA; choice++)
            write_record(g, (const uint8_t[RECORD_BYTES]){ DUMP, (uint8_t)k, (uint8_t)choice });
    }
}

/* Bytes in the areas, so that one that is emptied shows. */
static void fill_areas(struct generator *g, int berth)
{
    emit_single(g, berth);
    if (g->model.node.tx[berth].state == TX_IDLE)
        emit_send(g, berth, between(&g->dice, 1, g->model.node.area));
}

/* Consecutive with this gap left, whatever else the side carries. */
static void load_gap_left(struct generator *g, int berth, int gap_left)
{
    struct send_side tx = some_send_side(g);
    while (tx.state != CONSECUTIVE)
        tx = some_send_side(g);
    tx.gap_left = gap_left;
    tx.timer = 0;
    emit_send_side(g, berth, &tx);
}

static void load_idle(struct generator *g, int berth)
{
    struct receive_side rx = { .state = RX_IDLE, .last = roll(&g->dice, g->model.node.area + 1) };
    struct send_side tx = { .state = TX_IDLE };
    emit_receive_side(g, berth, &rx);
    emit_send_side(g, berth, &tx);
}

/*
 * A node in order. Its last side ends with the last tick: 1,127 would not do.
 * The tick before is often some side's too, and often a berth is wholly idle.
 */
static void load_node_in_order(struct generator *g)
{
    int last = roll(&g->dice, BERTHS);
    for (int k = 0; k < BERTHS; k++)
        fill_areas(g, k);
    settle(g);
    if (chance(&g->dice, 50))
        load_gap_left(g, roll(&g->dice, BERTHS), GAP_MAX - 1);
    if (chance(&g->dice, 50))
        load_idle(g, roll(&g->dice, BERTHS));
    load_gap_left(g, last, GAP_MAX);
    for (int k = 0; k < BERTHS; k++)
        deal_whole_card(g, k);
}

/* A berth with no frame due: no turn comes to it, and it keeps none from the others. */
static void load_without_due(struct generator *g, int berth)
{
    struct receive_side rx = some_receive_side(g, berth);
    struct send_side tx = some_send_side(g);
    while (rx.state != RX_IDLE && rx.state != AWAITS)
        rx = some_receive_side(g, berth);
    while (tx.state != TX_IDLE && tx.state != AWAITS_FLOW)
        tx = some_send_side(g);
    emit_receive_side(g, berth, &rx);
    emit_send_side(g, berth, &tx);
}

static void leave_some_alone(struct generator *g, bool *alone)
{
    bool none_due = chance(&g->dice, 50);
    for (int left = between(&g->dice, 1, 4); left > 0; left--) {
        int berth = roll(&g->dice, BERTHS);
        alone[berth] = true;
        if (none_due)
            load_without_due(g, berth);
    }
}

/* The berth that a turn would serve; BERTHS if none has a frame due. */
static int next_in_turn(const struct generator *g)
{
    struct world tried = g->model;
    struct call turn = { .kind = TURN, .buffer = FRAME_BYTES };
    struct answer answer = perform(&tried, &turn);
    return answer.turn.none ? BERTHS : tried.node.served;
}

/* A call of a berth that is not left alone: a turn where it would be its, else a frame or a send that is answered. */
static void go_on(struct generator *g, const bool *alone)
{
    int berth = roll(&g->dice, BERTHS), next = next_in_turn(g);
    const struct node *node = &g->model.node;
    if (chance(&g->dice, 50) && (next == BERTHS || !alone[next]))
        emit_turn(g);
    else if (alone[berth])
        return;
    else if (node->tx[berth].state == TX_IDLE || node->tx[berth].state == AWAITS_FLOW)
        advance_send(g, berth);
    else if (node->rx[berth].state == RX_IDLE || node->rx[berth].state == AWAITS)
        advance_receive(g, berth);
    else
        emit_single(g, berth);
}

/* The calls stand between the ticks, none before the first and none behind the last but one. */
static void pass_with_others(struct generator *g, const bool *alone)
{
    int busy = between(&g->dice, 10, 70);
    for (int i = 1; i < FREE_TICKS; i++) {
        write_tick(g);
        if (i < FREE_TICKS - 1 && chance(&g->dice, busy))
            go_on(g, alone);
    }
}

static void pass_quietly(struct generator *g)
{
    for (int i = 1; i < FREE_TICKS; i++)
        write_tick(g);
}

static void come_free(struct generator *g, bool with_others)
{
    bool alone[BERTHS] = { false };
    load_node_in_order(g);
    if (with_others)
        leave_some_alone(g, alone);
    look_at_everything(g);
    if (with_others)
        pass_with_others(g, alone);
    else
        pass_quietly(g);
    look_at_states(g);
    write_tick(g);
    look_at_everything(g);
}

/* Every third node is one in which other berths go on. */
void generate_free(uint64_t seed, int nodes)
{
    struct generator g = {
        .dice = { seed }, .card_dice = { seed }, .party_dice = { ~seed }, .program = SCENES, .left = LONG_MAX,
        .plain = true,
    };
    open_world(&g.model, SCENES);
    emit_good_header(&g, seed);
    for (int i = 0; i < nodes; i++)
        come_free(&g, i % 3 == 2);
    close_world(&g.model);
}
