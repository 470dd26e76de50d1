/*
 * generate_scenes.c - what only a scenes stream can do: load states, lend odd stores, look at everything.
 */
#include <stdio.h>

#include "generate.h"
#include "generate_loads.h"

/* Small areas make every edge near; the rows behind the good ones are refused or bad. */
static const struct header {
    uint32_t area, block_size, stmin, unused;
} headers[] = {
    { 40, 2, 0x05, 0 }, { 8, 0, 0x00, 0 },   { 8, 1, 0x7F, 0 },    { 9, 3, 0xF1, 0 },
    { 13, 1, 0xF9, 0 }, { 14, 2, 0x00, 0 },  { 20, 4, 0x00, 0 },   { 21, 255, 0x01, 0 },
    { 40, 1, 0x00, 0 }, { 62, 8, 0x00, 0 },  { 40, 0, 0x0A, 0 },   { 100, 3, 0x02, 0 },
    { 300, 5, 0xF5, 0 }, { 1000, 8, 0, 0 },  { 4095, 0, 0x00, 0 }, { 4090, 16, 0x05, 0 },
    { 7, 0, 0x00, 0 },  { 4096, 0, 0, 0 },   { 65576, 2, 0, 0 },   { 40, 256, 0x00, 0 },
    { 40, 0, 0x80, 0 }, { 40, 0, 0xFA, 0 },  { 40, 0, 0x100, 0 },  { 40, 2, 0x05, 1 },
};

enum { HEADERS = sizeof headers / sizeof headers[0], GOOD_HEADERS = 16, MORE_MAX = 127 };

static void put(uint8_t *record, int from, int to, uint64_t value)
{
    for (int i = to; i >= from; i--, value >>= 8)
        record[i] = (uint8_t)value;
}

static void put_settings(uint8_t *record, int from, const struct header *settings)
{
    put(record, from, from + 3, settings->area);
    put(record, from + 4, from + 5, settings->block_size);
    put(record, from + 6, from + 7, settings->stmin);
}

/* By the seed and not by the dice, so that a row of seeds takes every header. */
void emit_header(struct generator *g, uint64_t seed)
{
    if (g->left <= 0)
        return;
    const struct header *header = &headers[seed % HEADERS];
    uint8_t record[RECORD_BYTES] = { 0 };
    put_settings(record, 0, header);
    record[8 + seed % 8] = (uint8_t)header->unused;
    fwrite(record, 1, sizeof record, stdout);
    struct call call = read_header(record);
    perform(&g->model, &call);
    g->left--;
}

/* A row of seeds takes every header that is answered. */
void emit_good_header(struct generator *g, uint64_t seed)
{
    emit_header(g, seed % GOOD_HEADERS);
}

void look(struct generator *g, int berth)
{
    bool long_area = g->model.area > 200;
    uint8_t record[RECORD_BYTES] = { STATE, (uint8_t)berth };
    switch (roll(&g->dice, 8)) {
    case 0:
        record[0] = NODE;
        record[1] = 0;
        break;
    case 1: case 2:
        record[0] = SHOW;
        record[1] = (uint8_t)(chance(&g->dice, 95) ? berth : roll(&g->dice, 256));
        record[2] = (uint8_t)roll(&g->dice, 2);
        break;
    case 3: case 4:
        if (long_area && chance(&g->dice, 80))
            break;
        record[0] = DUMP;
        record[2] = (uint8_t)roll(&g->dice, 2);
        break;
    default:
        break;
    }
    emit(g, record);
}

/* Fields that a state does not carry may hold anything, so now and then they do. */
static void fill_with_noise(struct generator *g, uint8_t *record, int last)
{
    if (chance(&g->dice, 70))
        return;
    for (int i = 3; i <= last; i++)
        record[i] = (uint8_t)roll(&g->dice, 256);
}

void emit_receive_side(struct generator *g, int berth, const struct receive_side *rx)
{
    uint8_t record[RECORD_BYTES] = { LOAD_RECEIVE, (uint8_t)berth, (uint8_t)rx->state };
    fill_with_noise(g, record, 12);
    if (rx->state == OWES_GO || rx->state == AWAITS) {
        put(record, 3, 4, (uint64_t)rx->total);
        put(record, 5, 6, (uint64_t)rx->got);
        put(record, 7, 7, (uint64_t)rx->sn);
        put(record, 8, 8, (uint64_t)rx->taken);
    }
    if (rx->state != RX_IDLE)
        put(record, 9, 10, (uint64_t)rx->timer);
    put(record, 11, 12, (uint64_t)rx->last);
    emit(g, record);
}

void emit_send_side(struct generator *g, int berth, const struct send_side *tx)
{
    uint8_t record[RECORD_BYTES] = { LOAD_SEND, (uint8_t)berth, (uint8_t)tx->state };
    fill_with_noise(g, record, 13);
    if (tx->state != TX_IDLE) {
        put(record, 3, 4, (uint64_t)tx->length);
        put(record, 12, 13, (uint64_t)tx->timer);
    }
    if (tx->state == AWAITS_FLOW || tx->state == CONSECUTIVE) {
        put(record, 5, 6, (uint64_t)tx->position);
        put(record, 7, 7, (uint64_t)tx->sn);
        put(record, 8, 8, (uint64_t)tx->block_size);
        put(record, 9, 9, (uint64_t)tx->sent);
        put(record, 10, 10, (uint64_t)tx->gap);
        put(record, 11, 11, (uint64_t)tx->gap_left);
    }
    record[14] = party_byte(g, tx);
    emit(g, record);
}

struct own {
    int served, area, block_size, stmin;
    int incoming_more, outgoing_more;
};

static void emit_own(struct generator *g, const struct own *own)
{
    uint8_t record[RECORD_BYTES] = { LOAD_NODE, (uint8_t)own->served };
    put(record, 2, 3, (uint64_t)own->area);
    put(record, 4, 4, (uint64_t)own->block_size);
    put(record, 5, 5, (uint64_t)own->stmin);
    put(record, 6, 6, (uint64_t)own->incoming_more);
    put(record, 7, 7, (uint64_t)own->outgoing_more);
    emit(g, record);
}

/* An A for which stores of the right length can be lent: the header's, or one near it. */
static int reachable_area(struct generator *g)
{
    int header = g->model.area;
    int low = header - MORE_MAX / BERTHS, high = header + MORE_MAX / BERTHS;
    if (header >= AREA_MIN && chance(&g->dice, 60))
        return header;
    return between(&g->dice, low < AREA_MIN ? AREA_MIN : low, high > AREA_MAX ? AREA_MAX : high);
}

static int some_allowed_stmin(struct generator *g)
{
    static const int stmins[] = { 0x00, 0x05, 0x7F, 0xF1, 0xF9 };
    return stmins[roll(&g->dice, 5)];
}

static struct own some_own(struct generator *g)
{
    static const int block_sizes[] = { 0, 1, 2, 3, 8, 255 };
    int area = reachable_area(g), more = BERTHS * (area - g->model.area);
    return (struct own){
        .served = roll(&g->dice, BERTHS),
        .area = area,
        .block_size = block_sizes[roll(&g->dice, 6)],
        .stmin = some_allowed_stmin(g),
        .incoming_more = more,
        .outgoing_more = more,
    };
}

/*
 * Brings the whole node in order, in states of every kind, with stores of the right length.
 * Most berths get settings of their own.
 */
void settle(struct generator *g)
{
    struct own own = some_own(g);
    emit_own(g, &own);
    for (int k = 0; k < BERTHS; k++) {
        if (chance(&g->dice, 60))
            emit_settings(g, k, some_settings(g));
        struct receive_side rx = some_receive_side(g, k);
        struct send_side tx = some_send_side(g);
        emit_receive_side(g, k, &rx);
        emit_send_side(g, k, &tx);
    }
}

/* In order, and with stores of the right length. */
bool usable(const struct world *world)
{
    return in_order(&world->node) && has_ten_areas(&world->node, world->incoming)
        && has_ten_areas(&world->node, world->outgoing);
}

static void emit_odd_turn(struct generator *g)
{
    static const int lengths[] = { 1, 6, 7, 7, 8, 9, 31, 32, 33, 254, 255, 255 };
    emit(g, (const uint8_t[RECORD_BYTES]){ TURN, (uint8_t)lengths[roll(&g->dice, 12)] });
}

/* Some of each call, to see what the node as it is now answers. */
static void probe(struct generator *g)
{
    int berth = roll(&g->dice, BERTHS);
    for (int i = 0; i < 7; i++) {
        switch (roll(&g->dice, 6)) {
        case 0:
            disturb(g, berth);
            break;
        case 1:
            emit_tick(g);
            break;
        case 2:
            emit_send(g, berth, roll(&g->dice, 12));
            break;
        case 3:
            if (chance(&g->dice, 70))
                emit_turn(g);
            else
                emit_odd_turn(g);
            break;
        case 4:
            advance_receive(g, berth);
            break;
        default:
            look(g, berth);
            break;
        }
    }
}

static void emit_set_up(struct generator *g, const struct header *settings)
{
    uint8_t record[RECORD_BYTES] = { SET_UP };
    put_settings(record, 1, settings);
    emit(g, record);
}

/* A set-up that is answered, then stores that fit it. */
static void set_up_and_lend(struct generator *g)
{
    struct own own = some_own(g);
    struct header settings = { (uint32_t)own.area, (uint32_t)own.block_size, (uint32_t)own.stmin, 0 };
    emit_set_up(g, &settings);
    probe(g);
    own.served = g->model.node.served;
    emit_own(g, &own);
}

static void set_up_refused(struct generator *g)
{
    const struct header refused[] = {
        { 7, 0, 0, 0 }, { 4096, 0, 0, 0 }, { 65576, 0, 0, 0 }, { 0x80000028, 0, 0, 0 }, { 0, 0, 0, 0 },
        { 40, 256, 0, 0 }, { 40, 0xFFFF, 0, 0 }, { 40, 0, 0x80, 0 }, { 40, 0, 0xF0, 0 },
        { 40, 0, 0xFA, 0 }, { 40, 0, 0xFF, 0 }, { 40, 0, 0x100, 0 }, { 40, 0, 0xF1F1, 0 },
    };
    emit_set_up(g, &refused[roll(&g->dice, 13)]);
    probe(g);
}

/* All sides idle, so that nothing but the settings can be out of order. */
static void spoil_settings(struct generator *g, enum fault fault)
{
    static const int stmins[] = { 0x80, 0xF0, 0xFA, 0xFF };
    set_up_and_lend(g);
    struct own own = some_own(g);
    if (fault == area_small)
        own.area = chance(&g->dice, 60) ? AREA_MIN - 1 : roll(&g->dice, AREA_MIN);
    else if (fault == area_large)
        own.area = chance(&g->dice, 60) ? AREA_MAX + 1 : between(&g->dice, AREA_MAX + 1, 0xFFFF);
    else if (fault == stmin_reserved)
        own.stmin = stmins[roll(&g->dice, 4)];
    else
        own.served = chance(&g->dice, 60) ? BERTHS : between(&g->dice, BERTHS, 255);
    emit_own(g, &own);
}

/* Of one berth only, whatever the others and the berth itself are at. */
static void spoil_stmin(struct generator *g, int berth)
{
    struct berth_settings set = g->model.node.set[berth];
    set.stmin = some_reserved_stmin(g);
    emit_settings(g, berth, set);
}

static void one_field_out_of_range(struct generator *g)
{
    enum fault fault = (enum fault)between(&g->dice, area_small, FAULT_COUNT - 1);
    int berth = roll(&g->dice, BERTHS);
    struct receive_side rx;
    struct send_side tx;
    if (!usable(&g->model))
        settle(g);
    if (fault == stmin_reserved && chance(&g->dice, 60))
        spoil_stmin(g, berth);
    else if (fault <= served_large)
        spoil_settings(g, fault);
    else if (spoil_receive_side(g, fault, berth, &rx))
        emit_receive_side(g, berth, &rx);
    else if (spoil_send_side(g, fault, &tx))
        emit_send_side(g, berth, &tx);
    probe(g);
    if (chance(&g->dice, 30))
        set_up_refused(g);
    if (chance(&g->dice, 30))
        set_up_and_lend(g);
    rx = some_receive_side(g, berth);
    tx = some_send_side(g);
    emit_settings(g, berth, settings_that_fit(g, &rx));
    emit_receive_side(g, berth, &rx);
    emit_send_side(g, berth, &tx);
}

static void odd_stores(struct generator *g)
{
    struct own own = some_own(g);
    int more = chance(&g->dice, 50) ? 1 - 2 * roll(&g->dice, 2) : between(&g->dice, -128, 127);
    int which = roll(&g->dice, 3);
    own.incoming_more += which == 1 ? 0 : more;
    own.outgoing_more += which == 0 ? 0 : more;
    emit_own(g, &own);
    probe(g);
    probe(g);
}

static void odd_buffers(struct generator *g)
{
    for (int i = 0; i < 8; i++) {
        emit_odd_turn(g);
        if (chance(&g->dice, 40))
            look(g, roll(&g->dice, BERTHS));
    }
}

static void frames_asked_for(struct generator *g)
{
    const uint64_t lengths[] = {
        0, 1, 7, 8, 13, 14, 20, 21, 4094, 4095, 4096, 4097, 65535, 65536, 65544, 0x100000008,
        UINT64_MAX, (uint64_t)g->model.node.area, (uint64_t)g->model.node.area + 1,
        (uint64_t)roll(&g->dice, 4200), roll_bits(&g->dice),
    };
    for (int i = 0; i < 5; i++) {
        uint8_t record[RECORD_BYTES] = { NEEDS };
        put(record, 1, 8, lengths[roll(&g->dice, 21)]);
        emit(g, record);
    }
}

/* From loaded states a few steps lead to places that a run from set-up seldom sees. */
static void steps_from_loaded_states(struct generator *g)
{
    settle(g);
    int steps = between(&g->dice, 10, 60);
    for (int i = 0; i < steps; i++) {
        int berth = roll(&g->dice, BERTHS), kind = roll(&g->dice, 10);
        if (kind < 3)
            advance_receive(g, berth);
        else if (kind < 6)
            advance_send(g, berth);
        else if (kind < 7)
            disturb(g, berth);
        else if (kind < 8)
            emit_ignored(g, berth);
        else
            emit_tick(g);
    }
}

void stretch_of_scenes(struct generator *g)
{
    switch (roll(&g->dice, 10)) {
    case 0: case 1: case 2: case 3:
        steps_from_loaded_states(g);
        break;
    case 4: case 5: case 6:
        for (int i = 0; i < 4; i++)
            one_field_out_of_range(g);
        break;
    case 7:
        odd_stores(g);
        break;
    case 8:
        odd_buffers(g);
        frames_asked_for(g);
        break;
    default:
        set_up_refused(g);
        set_up_and_lend(g);
        break;
    }
}
