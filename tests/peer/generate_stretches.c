/*
 * generate_stretches.c - runs of records with one purpose, for both programs.
 */
#include "generate.h"

static int any_berth(struct generator *g)
{
    return roll(&g->dice, BERTHS);
}

/* A scenes stream has fewer records than an exerciser stream, and looks around in between. */
static int scaled(const struct generator *g, int records)
{
    return g->program == EXERCISER ? records : records / 4;
}

/* Whole messages on one berth, one way or both ways at once. */
void stretch_of_transfer(struct generator *g)
{
    int berth = any_berth(g), ways = roll(&g->dice, 3);
    int records = scaled(g, between(&g->dice, 20, 400));
    for (int i = 0; i < records; i++) {
        if (chance(&g->dice, 1))
            disturb(g, berth);
        bool receive = ways == 0 || (ways == 2 && chance(&g->dice, 50));
        if (receive)
            advance_receive(g, berth);
        else
            advance_send(g, berth);
    }
}

/* All ten berths at once, with some mischief in every stretch but the calm ones. */
void stretch_of_crowd(struct generator *g)
{
    int mischief = roll(&g->dice, 4) * 8;
    int records = scaled(g, between(&g->dice, 50, 400));
    for (int i = 0; i < records; i++) {
        int berth = any_berth(g);
        if (chance(&g->dice, mischief))
            disturb(g, berth);
        else if (chance(&g->dice, 5))
            emit_tick(g);
        else if (chance(&g->dice, 50))
            advance_receive(g, berth);
        else
            advance_send(g, berth);
    }
}

static void ticks(struct generator *g, int count)
{
    for (int i = 0; i < count; i++) {
        emit_tick(g);
        if (chance(&g->dice, 2))
            emit_ignored(g, any_berth(g));
    }
}

/* Ends most of what is under way, so that the next sides can be placed where they are wanted. */
static void clear_sides(struct generator *g)
{
    finish_turns(g);
    for (int k = 0; k < BERTHS; k++) {
        if (g->model.node.rx[k].state != RX_IDLE && chance(&g->dice, 80))
            emit_frame(g, FROM_BERTH_0 + k, (const uint8_t[FRAME_BYTES]){ 1, (uint8_t)k }, 2);
        if (g->model.node.tx[k].state == AWAITS_FLOW && chance(&g->dice, 80))
            emit_flow_control(g, k, between(&g->dice, 2, 15), 0, 0);
    }
}

/* An STmin that asks for a gap, often for the longest, which ends last. */
static int stmin_of_some_gap(struct generator *g)
{
    return chance(&g->dice, 20) ? STMIN_TICKS_MAX : between(&g->dice, 1, STMIN_TICKS_MAX);
}

/* Sides that only a hand-over leads to: awaits, awaits flow control, consecutive in a gap and without. */
static void place_waiting_sides(struct generator *g)
{
    for (int k = 0; k < BERTHS; k++) {
        if (chance(&g->dice, 40))
            emit_first(g, k, between(&g->dice, 30, 200));
        if (chance(&g->dice, 60))
            emit_send(g, k, between(&g->dice, 30, 200));
    }
    finish_turns(g);
    for (int k = 0; k < BERTHS; k++)
        for (int frames = roll(&g->dice, 8); frames > 0 && g->model.node.rx[k].state == AWAITS; frames--)
            advance_receive(g, k);
    for (int k = 0; k < BERTHS; k++)
        if (g->model.node.tx[k].state == AWAITS_FLOW && chance(&g->dice, 30))
            emit_flow_control(g, k, 0, 0, stmin_of_some_gap(g));
    finish_turns(g);
    for (int k = 0; k < BERTHS; k++)
        if (g->model.node.tx[k].state == AWAITS_FLOW && chance(&g->dice, 50))
            emit_flow_control(g, k, 0, 0, 0);
}

static void place_due_sides(struct generator *g)
{
    for (int k = 0; k < BERTHS; k++) {
        if (g->model.node.rx[k].state == RX_IDLE && chance(&g->dice, 80))
            emit_first(g, k, chance(&g->dice, 50) ? AREA_MAX : between(&g->dice, 8, 200));
        if (g->model.node.tx[k].state == TX_IDLE && chance(&g->dice, 80))
            emit_send(g, k, chance(&g->dice, 50) ? 3 : between(&g->dice, 8, 200));
    }
}

static void knock_at_busy_berths(struct generator *g)
{
    for (int i = 0; i < BERTHS; i++)
        emit_strange_send(g, any_berth(g));
}

static void rescue_some(struct generator *g)
{
    for (int k = 0; k < BERTHS; k++) {
        if (chance(&g->dice, 40))
            advance_receive(g, k);
        if (chance(&g->dice, 40))
            advance_send(g, k);
        if (chance(&g->dice, 40))
            emit_ignored(g, k);
        if (chance(&g->dice, 10))
            emit_first(g, k, chance(&g->dice, 50) ? AREA_MAX : 100);
    }
}

/*
 * The end of every timer. All sides are placed between two ticks, so their
 * timers run together: at 999 some are rescued, and one tick ends the others.
 */
void stretch_of_waiting(struct generator *g)
{
    if (chance(&g->dice, 30)) {
        ticks(g, between(&g->dice, 1, 130));
        return;
    }
    clear_sides(g);
    place_waiting_sides(g);
    place_due_sides(g);
    knock_at_busy_berths(g);
    ticks(g, TIMER_END - 1);
    rescue_some(g);
    ticks(g, chance(&g->dice, 50) ? 3 : 130);
}

void stretch_of_noise(struct generator *g)
{
    int records = scaled(g, between(&g->dice, 40, 160));
    for (int i = 0; i < records; i++)
        disturb(g, any_berth(g));
}

/* One byte set where it may be unused, or nothing but noise. Some of these records are good. */
void stretch_of_bad_records(struct generator *g)
{
    int records = between(&g->dice, 5, 30);
    for (int i = 0; i < records; i++) {
        uint8_t record[RECORD_BYTES] = { (uint8_t)roll(&g->dice, 16) };
        if (chance(&g->dice, 70))
            record[roll(&g->dice, RECORD_BYTES)] = (uint8_t)roll(&g->dice, 256);
        else
            for (int k = 1; k < RECORD_BYTES; k++)
                record[k] = (uint8_t)roll(&g->dice, 256);
        emit(g, record);
    }
}
