/*
 * generate_settings.c - scenes streams of changes, in every state of both sides, request W3.
 *
 * Each change has a look at its berth before it and behind it. Between them
 * messages arrive, so that go frames and blocks show what stands; and now and
 * then all settings are given anew, or those of one berth are out of order.
 * tests/settings.py reads the law off the lines, so nothing else is odd: ten
 * cards and stores of the right length are lent throughout.
 */
#include <limits.h>

#include "generate.h"
#include "generate_loads.h"

enum { MESSAGE_STEPS = 60, LONG_ENOUGH = 90 };

static void look_at(struct generator *g, int berth)
{
    write_record(g, (const uint8_t[RECORD_BYTES]){ STATE, (uint8_t)berth });
}

static void look_at_all(struct generator *g)
{
    for (int k = 0; k < BERTHS; k++)
        look_at(g, k);
    write_record(g, (const uint8_t[RECORD_BYTES]){ NODE });
}

static void load_sides(struct generator *g, int berth)
{
    struct receive_side rx = some_receive_side(g, berth);
    struct send_side tx = some_send_side(g);
    emit_receive_side(g, berth, &rx);
    emit_send_side(g, berth, &tx);
}

static void go_on(struct generator *g, int berth)
{
    for (int steps = roll(&g->dice, 7); steps > 0; steps--) {
        int kind = roll(&g->dice, 5);
        if (kind == 0)
            emit_tick(g);
        else if (kind < 3)
            advance_receive(g, berth);
        else
            advance_send(g, berth);
    }
}

/* A message of a few frames, which shows the berth's go and where its blocks end. */
static void message_arrives(struct generator *g, int berth)
{
    int area = g->model.node.area, most = area < LONG_ENOUGH ? area : LONG_ENOUGH;
    emit_first(g, berth, chance(&g->dice, 50) ? most : between(&g->dice, AREA_MIN, most));
    for (int i = 0; i < MESSAGE_STEPS && g->model.node.rx[berth].state != RX_IDLE; i++)
        advance_receive(g, berth);
}

/* Two messages with a change of BS between them, so that their blocks are cut differently. */
static void messages_cut_differently(struct generator *g, int berth)
{
    message_arrives(g, berth);
    emit_change(g, berth, BLOCK_SIZE, (uint32_t)between(&g->dice, 1, 4));
    message_arrives(g, berth);
}

static void look_and_change(struct generator *g, int berth)
{
    bool whole = chance(&g->dice, 10);
    if (whole)
        look_at_all(g);
    look_at(g, berth);
    emit_some_change(g, berth);
    look_at(g, berth);
    if (whole)
        look_at_all(g);
}

/* The same A, so that the stores that are lent fit; a refused one has settings that could be taken. */
static void set_up_again(struct generator *g, bool refused)
{
    struct berth_settings set = some_settings(g);
    int area = refused ? AREA_MIN - 1 : g->model.node.area;
    look_at_all(g);
    write_record(g, (const uint8_t[RECORD_BYTES]){
        SET_UP, 0, 0, (uint8_t)(area >> 8), (uint8_t)area, 0, (uint8_t)set.block_size, 0, (uint8_t)set.stmin,
    });
    look_at_all(g);
}

/* One block size for all, which must be above what each has taken. */
static void load_all_alike(struct generator *g)
{
    const struct node *node = &g->model.node;
    struct receive_side most = { .taken = 0 };
    for (int k = 0; k < BERTHS; k++)
        if (node->rx[k].taken > most.taken)
            most = node->rx[k];
    struct berth_settings set = settings_that_fit(g, &most);
    write_record(g, (const uint8_t[RECORD_BYTES]){
        LOAD_NODE, (uint8_t)roll(&g->dice, BERTHS), (uint8_t)(node->area >> 8), (uint8_t)node->area,
        (uint8_t)set.block_size, (uint8_t)set.stmin,
    });
    look_at_all(g);
}

static void give_settings_anew(struct generator *g, int berth)
{
    switch (roll(&g->dice, 8)) {
    case 0:
        set_up_again(g, false);
        break;
    case 1:
        set_up_again(g, true);
        break;
    case 2:
        load_all_alike(g);
        break;
    case 3: case 4: case 5:
        spoil_one_berth(g);
        break;
    default:
        emit_settings(g, berth, settings_that_fit(g, &g->model.node.rx[berth]));
        look_at(g, berth);
        break;
    }
}

void generate_settings(uint64_t seed, int changes)
{
    struct generator g = {
        .dice = { seed }, .card_dice = { seed }, .set_dice = { ~seed }, .party_dice = { ~seed }, .program = SCENES,
        .left = LONG_MAX, .plain = true,
    };
    open_world(&g.model, SCENES);
    emit_good_header(&g, seed);
    for (int i = 0; i < changes; i++) {
        int berth = roll(&g.dice, BERTHS), kind = roll(&g.dice, 10);
        if (kind < 4)
            load_sides(&g, berth);
        else if (kind < 6)
            go_on(&g, berth);
        else if (kind < 8)
            messages_cut_differently(&g, berth);
        else
            give_settings_anew(&g, berth);
        look_and_change(&g, berth);
        if (chance(&g.dice, 30))
            message_arrives(&g, berth);
    }
    close_world(&g.model);
}
