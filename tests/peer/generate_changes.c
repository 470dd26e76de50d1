/*
 * generate_changes.c - the records of a scenes stream that change or load the settings of a berth, request W3.
 *
 * They come between the other records, so that a change meets every state of
 * both sides, on nodes in order and out of order, and so that berths differ.
 */
#include "generate.h"

enum { ALLOWED_STMINS = STMIN_TICKS_MAX + 1 + 9 };

void emit_settings(struct generator *g, int berth, struct berth_settings set)
{
    write_record(g, (const uint8_t[RECORD_BYTES]){
        LOAD_SETTINGS, (uint8_t)berth, (uint8_t)set.block_size, (uint8_t)set.stmin,
    });
}

void emit_change(struct generator *g, int berth, int parameter, uint32_t value)
{
    write_record(g, (const uint8_t[RECORD_BYTES]){
        CHANGE, (uint8_t)berth, (uint8_t)parameter,
        (uint8_t)(value >> 24), (uint8_t)(value >> 16), (uint8_t)(value >> 8), (uint8_t)value,
    });
}

static int some_stmin(struct generator *g)
{
    static const int stmins[] = { 0x00, 0x01, 0x05, 0x7E, 0x7F, 0xF1, 0xF5, 0xF9 };
    if (chance(&g->set_dice, 70))
        return stmins[roll(&g->set_dice, 8)];
    int any = roll(&g->set_dice, ALLOWED_STMINS);
    return any <= STMIN_TICKS_MAX ? any : any - STMIN_TICKS_MAX + 0xF0;
}

int some_reserved_stmin(struct generator *g)
{
    static const int stmins[] = { 0x80, 0xF0, 0xFA, 0xFF };
    return chance(&g->set_dice, 80) ? stmins[roll(&g->set_dice, 4)] : between(&g->set_dice, 0x80, 0xF0);
}

/* Small ones as a rule, which cut a message into blocks. */
static int some_block_size(struct generator *g)
{
    static const int sizes[] = { 0, 1, 2, 3, 4, 8, 254, 255 };
    return chance(&g->set_dice, 80) ? sizes[roll(&g->set_dice, 8)] : roll(&g->set_dice, BLOCK_MAX + 1);
}

struct berth_settings some_settings(struct generator *g)
{
    return (struct berth_settings){ some_block_size(g), some_stmin(g) };
}

/* Beside this side, most often with the block almost full. */
struct berth_settings settings_that_fit(struct generator *g, const struct receive_side *rx)
{
    struct berth_settings set = some_settings(g);
    bool fits = set.block_size == 0 ? rx->taken == 0 : rx->taken < set.block_size;
    if (!fits)
        set.block_size = chance(&g->set_dice, 50) ? rx->taken + 1 : between(&g->set_dice, rx->taken + 1, BLOCK_MAX);
    return set;
}

/* Outside the range of one parameter or of both; where fewer than 32 bits count they are inside. */
static uint32_t some_strange_value(struct generator *g)
{
    static const uint32_t values[] = {
        0x80, 0x81, 0xF0, 0xFA, 0xFF, 0x100, 0x101, 0x105, 0x17F, 0x1F1, 0xFFFF, 0x10000, 0x10002, 0x100F9,
        0x01000000, 0x0500007F, 0x7FFFFFFF, 0x80000000, 0x80000001, 0xFFFFFF05, 0xFFFFFFFF,
    };
    if (chance(&g->set_dice, 20))
        return (uint32_t)roll_bits(&g->set_dice);
    return values[roll(&g->set_dice, sizeof values / sizeof values[0])];
}

static int some_parameter(struct generator *g)
{
    static const int unknown[] = { 2, 3, 4, 127, 128, 254, 255 };
    return chance(&g->set_dice, 88) ? roll(&g->set_dice, 2) : unknown[roll(&g->set_dice, 7)];
}

/* Of this berth as a rule; any of the five refusals may be met, and several at once. */
void emit_some_change(struct generator *g, int berth)
{
    int parameter = some_parameter(g);
    int good = parameter == STMIN ? some_stmin(g) : some_block_size(g);
    uint32_t value = chance(&g->set_dice, 75) ? (uint32_t)good : some_strange_value(g);
    if (chance(&g->set_dice, 6))
        berth = chance(&g->set_dice, 50) ? BERTHS : between(&g->set_dice, BERTHS, 255);
    emit_change(g, berth, parameter, value);
}

static void see_state(struct generator *g, int berth)
{
    write_record(g, (const uint8_t[RECORD_BYTES]){ STATE, (uint8_t)berth });
}

static void change_and_see(struct generator *g, int berth)
{
    emit_some_change(g, berth);
    if (chance(&g->set_dice, 50))
        see_state(g, chance(&g->set_dice, 80) ? berth : roll(&g->set_dice, BERTHS));
}

static void load_and_see(struct generator *g, int berth)
{
    emit_settings(g, berth, settings_that_fit(g, &g->model.node.rx[berth]));
    see_state(g, berth);
}

/* Each of the six, for any berth. */
static void emit_each_call(struct generator *g)
{
    uint8_t berth = (uint8_t)roll(&g->set_dice, BERTHS), other = (uint8_t)roll(&g->set_dice, BERTHS);
    const uint8_t calls[][RECORD_BYTES] = {
        { FRAME, 0, FROM_BERTH_0 >> 8, (FROM_BERTH_0 & 0xFF) + berth, 2, 0, 0, 0, 1, berth },
        { TICK }, { SEND, other, 0, 1 }, { TURN }, { SHOW, berth, (uint8_t)roll(&g->set_dice, 2) },
    };
    for (size_t i = 0; i < sizeof calls / sizeof calls[0]; i++)
        write_record(g, calls[i]);
    emit_some_change(g, berth);
    emit_some_change(g, other);
}

/* Any, or often one that has taken frames of a block, which a smaller BS puts out of order. */
static int berth_to_spoil(struct generator *g)
{
    int from = roll(&g->set_dice, BERTHS);
    for (int i = 0; i < BERTHS && chance(&g->set_dice, 90); i++)
        if (g->model.node.rx[(from + i) % BERTHS].taken > 0)
            return (from + i) % BERTHS;
    return from;
}

/* One berth's settings alone out of order, which each call for each berth is refused for; then they are as before. */
void spoil_one_berth(struct generator *g)
{
    int berth = berth_to_spoil(g), taken = g->model.node.rx[berth].taken;
    struct berth_settings old = g->model.node.set[berth], bad = old;
    if (taken > 0 && chance(&g->set_dice, 70))
        bad.block_size = chance(&g->set_dice, 50) ? taken : roll(&g->set_dice, taken + 1);
    else
        bad.stmin = some_reserved_stmin(g);
    emit_settings(g, berth, bad);
    emit_each_call(g);
    see_state(g, berth);
    emit_settings(g, berth, old);
}

/* At the edge of what is good: a berth of 9 or 10, the next kind, a byte that may be unused. */
static void emit_edge_record(struct generator *g)
{
    uint8_t record[RECORD_BYTES] = { (uint8_t)between(&g->set_dice, LOAD_SETTINGS, CHANGE + 1) };
    record[1] = (uint8_t)between(&g->set_dice, 8, 11);
    record[3] = (uint8_t)some_stmin(g);
    if (chance(&g->set_dice, 60))
        record[between(&g->set_dice, 1, RECORD_BYTES - 1)] = (uint8_t)roll(&g->set_dice, 256);
    write_record(g, record);
}

void deal_changes(struct generator *g, int berth)
{
    int kind = roll(&g->set_dice, 1000);
    if (kind < 55)
        change_and_see(g, berth);
    else if (kind < 65)
        change_and_see(g, roll(&g->set_dice, BERTHS));
    else if (kind < 75)
        load_and_see(g, berth);
    else if (kind < 78 && usable(&g->model))
        spoil_one_berth(g);
    else if (kind < 82)
        emit_edge_record(g);
}
