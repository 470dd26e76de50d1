/*
 * generate_round.c - scenes streams of turns, with one set of due berths after the other, request W5.
 *
 * The berth served last goes by the seed: a row of ten seeds takes each, and with 1,024 sets each pair of a set and a
 * berth served last. One call for a frame follows, then a look at the node and at the berth that was served. The berths
 * that are not due are idle up to a front and busy behind it; sets of one due berth, and of none, have every front.
 */
#include <limits.h>

#include "generate.h"
#include "generate_loads.h"

enum berth_kind { IDLE_BERTH, BUSY_BERTH, DUE_BERTH };
enum { NO_FRONT = BERTHS + 1, FRONTS, SETS_WITH_A_FRONT = 16, ANEW_PERCENT = 20 };

static enum berth_kind kind_of(const struct receive_side *rx, const struct send_side *tx)
{
    bool flow_control = rx->state == OWES_OVERFLOW || rx->state == OWES_GO;
    bool message = tx->state == SINGLE_DUE || tx->state == FIRST_DUE
                || (tx->state == CONSECUTIVE && tx->gap_left == 0);
    if (flow_control || message)
        return DUE_BERTH;
    return rx->state == RX_IDLE && tx->state == TX_IDLE ? IDLE_BERTH : BUSY_BERTH;
}

static enum berth_kind kind_now(const struct generator *g, int berth)
{
    return kind_of(&g->model.node.rx[berth], &g->model.node.tx[berth]);
}

static void load_berth(struct generator *g, int berth, enum berth_kind kind)
{
    struct receive_side rx;
    struct send_side tx;
    do {
        rx = some_receive_side(g, berth);
        tx = some_send_side(g);
    } while (kind_of(&rx, &tx) != kind);
    emit_receive_side(g, berth, &rx);
    emit_send_side(g, berth, &tx);
}

/* Of a berth that is not due. Without a front, idle and busy ones stand anywhere. */
static enum berth_kind quiet_kind(struct generator *g, int berth, int front)
{
    if (front == NO_FRONT)
        return chance(&g->dice, 50) ? IDLE_BERTH : BUSY_BERTH;
    return berth < front ? IDLE_BERTH : BUSY_BERTH;
}

/* Most berths stay as they are where they fit, to keep the stream short; some are loaded anew, so that all change. */
static void load_berths(struct generator *g, int set, int front)
{
    for (int k = 0; k < BERTHS; k++) {
        enum berth_kind kind = set >> k & 1 ? DUE_BERTH : quiet_kind(g, k, front);
        if (kind_now(g, k) != kind || chance(&g->dice, ANEW_PERCENT))
            load_berth(g, k, kind);
    }
}

/* All berths have the header's settings, so that they may be loaded again beside any state. */
static void turn_and_look(struct generator *g, int served)
{
    const struct node *node = &g->model.node;
    write_record(g, (const uint8_t[RECORD_BYTES]){
        LOAD_NODE, (uint8_t)served, (uint8_t)(node->area >> 8), (uint8_t)node->area, (uint8_t)node->set[0].block_size,
        (uint8_t)node->set[0].stmin,
    });
    emit_turn(g);
    write_record(g, (const uint8_t[RECORD_BYTES]){ NODE });
    write_record(g, (const uint8_t[RECORD_BYTES]){ STATE, (uint8_t)node->served });
}

/* Streams of other seeds have other fronts for the same set. */
static void go_through_set(struct generator *g, int served, int set, int seed)
{
    bool one_or_none = (set & (set - 1)) == 0;
    int tries = one_or_none ? FRONTS : 1;
    for (int i = 0; i < tries; i++) {
        load_berths(g, set, one_or_none ? i : (set / SETS_WITH_A_FRONT + seed) % FRONTS);
        turn_and_look(g, served);
    }
}

void generate_round(uint64_t seed, int sets)
{
    struct generator g = {
        .dice = { seed }, .card_dice = { seed }, .party_dice = { ~seed }, .program = SCENES, .left = LONG_MAX,
        .plain = true,
    };
    open_world(&g.model, SCENES);
    emit_good_header(&g, seed);
    for (int k = 0; k < BERTHS; k++)    /* bytes in the areas, so that a frame of another berth shows */
        emit_send(&g, k, g.model.node.area);
    for (int set = 0; set < sets; set++)
        go_through_set(&g, (int)(seed % BERTHS), set, (int)(seed % FRONTS));
    close_world(&g.model);
}
