/*
 * generate_moves.c - single records, and steps that make progress in the model's state.
 */
#include "generate.h"

static int smaller(int a, int b)
{
    return a < b ? a : b;
}

static void put_number(uint8_t *record, int from, int value)
{
    record[from] = (uint8_t)(value >> 8);
    record[from + 1] = (uint8_t)value;
}

/* In a scenes stream every step may be followed by a look at what it did, unless it is plain. */
static void sometimes_look(struct generator *g, int berth)
{
    if (g->program == SCENES && !g->plain && chance(&g->dice, 30))
        look(g, berth);
}

void emit_frame(struct generator *g, int identifier, const uint8_t *data, int length)
{
    uint8_t record[RECORD_BYTES] = { FRAME };
    put_number(record, 2, identifier);
    record[4] = (uint8_t)length;
    for (int i = 0; i < smaller(length, FRAME_BYTES); i++)
        record[8 + i] = data[i];
    emit(g, record);
    int berth = identifier - FROM_BERTH_0;
    sometimes_look(g, berth >= 0 && berth < BERTHS ? berth : 0);
}

void emit_tick(struct generator *g)
{
    emit(g, (const uint8_t[RECORD_BYTES]){ TICK });
    sometimes_look(g, roll(&g->dice, BERTHS));
}

/* Most turns of a scenes stream have a buffer of 8 bytes, some a longer one. */
void emit_turn(struct generator *g)
{
    uint8_t record[RECORD_BYTES] = { TURN };
    if (g->program == SCENES && chance(&g->dice, 30))
        record[1] = (uint8_t)between(&g->dice, FRAME_BYTES, BUFFER_MAX);
    emit(g, record);
    sometimes_look(g, g->model.node.served % BERTHS);
}

void emit_send(struct generator *g, int berth, int length)
{
    uint8_t record[RECORD_BYTES] = { SEND, (uint8_t)berth };
    put_number(record, 2, length);
    record[8] = (uint8_t)roll(&g->dice, 256);
    if (g->program == SCENES)
        record[9] = (uint8_t)some_party(g);
    emit(g, record);
    sometimes_look(g, berth % BERTHS);
}

static void random_data(struct generator *g, uint8_t *data)
{
    for (int i = 0; i < FRAME_BYTES; i++)
        data[i] = (uint8_t)roll(&g->dice, 256);
}

void emit_first(struct generator *g, int berth, int total)
{
    uint8_t data[FRAME_BYTES];
    random_data(g, data);
    data[0] = (uint8_t)(0x10 + total / 256);
    data[1] = (uint8_t)total;
    emit_frame(g, FROM_BERTH_0 + berth, data, FRAME_BYTES);
}

void emit_flow_control(struct generator *g, int berth, int status, int block_size, int stmin)
{
    uint8_t data[FRAME_BYTES];
    random_data(g, data);
    data[0] = (uint8_t)(0x30 + status);
    data[1] = (uint8_t)block_size;
    data[2] = (uint8_t)stmin;
    emit_frame(g, FROM_BERTH_0 + berth, data, between(&g->dice, 3, FRAME_BYTES));
}

/* Lengths at the edges of frames, of blocks and of the area, where mistakes show. */
static int some_total(struct generator *g, int berth)
{
    const struct node *node = &g->model.node;
    int block_size = node->set[berth].block_size;
    int total = between(&g->dice, AREA_MIN, 60);
    switch (roll(&g->dice, 12)) {
    case 0:
        total = node->area - roll(&g->dice, 3);
        break;
    case 1: case 2:
        total = FIRST_BYTES + 7 * block_size * between(&g->dice, 1, 3) - roll(&g->dice, 7);
        break;
    case 3:
        total = between(&g->dice, AREA_MIN, 21);
        break;
    case 4:
        total = between(&g->dice, AREA_MIN, node->area);
        break;
    default:
        break;
    }
    int most = node->area < AREA_MIN ? AREA_MIN : smaller(node->area, AREA_MAX);
    return total < AREA_MIN ? AREA_MIN : smaller(total, most);
}

void emit_single(struct generator *g, int berth)
{
    uint8_t data[FRAME_BYTES];
    random_data(g, data);
    int length = between(&g->dice, 1, SINGLE_MAX);
    data[0] = (uint8_t)length;
    emit_frame(g, FROM_BERTH_0 + berth, data, chance(&g->dice, 50) ? FRAME_BYTES : length + 1);
}

static void emit_right_consecutive(struct generator *g, int berth)
{
    const struct receive_side *rx = &g->model.node.rx[berth];
    int missing = rx->total - rx->got;
    uint8_t data[FRAME_BYTES];
    random_data(g, data);
    data[0] = (uint8_t)(0x20 + rx->sn);
    bool cut = missing <= SINGLE_MAX && chance(&g->dice, 50);
    emit_frame(g, FROM_BERTH_0 + berth, data, cut ? missing + 1 : FRAME_BYTES);
}

void advance_receive(struct generator *g, int berth)
{
    switch (g->model.node.rx[berth].state) {
    case RX_IDLE:
        if (chance(&g->dice, 20))
            emit_single(g, berth);
        else
            emit_first(g, berth, some_total(g, berth));
        break;
    case AWAITS:
        emit_right_consecutive(g, berth);
        break;
    default:
        emit_turn(g);
        break;
    }
}

static int some_block_size(struct generator *g)
{
    static const int sizes[] = { 0, 0, 1, 2, 3, 8, 16, 255 };
    return chance(&g->dice, 90) ? sizes[roll(&g->dice, 8)] : roll(&g->dice, 256);
}

/* Long gaps are rare: they hold up their transfer until many ticks have gone by. */
static int some_stmin(struct generator *g)
{
    static const int edges[] = { 0x01, 0x7E, 0x7F, 0x80, 0xF0, 0xF1, 0xF9, 0xFA, 0xFF };
    int kind = roll(&g->dice, 20);
    if (kind < 11)
        return 0;
    if (kind < 16)
        return between(&g->dice, 1, 5);
    if (kind < 18)
        return between(&g->dice, 0xF1, 0xF9);
    return chance(&g->dice, 50) ? edges[roll(&g->dice, 9)] : roll(&g->dice, 256);
}

/* Go as a rule; WAIT keeps the transfer where it is, and any other status ends it. */
static int some_status(struct generator *g)
{
    if (chance(&g->dice, 87))
        return 0;
    return chance(&g->dice, 70) ? 1 : between(&g->dice, 2, 15);
}

void advance_send(struct generator *g, int berth)
{
    const struct send_side *tx = &g->model.node.tx[berth];
    switch (tx->state) {
    case TX_IDLE:
        emit_send(g, berth, chance(&g->dice, 20) ? between(&g->dice, 1, SINGLE_MAX) : some_total(g, berth));
        break;
    case AWAITS_FLOW:
        emit_flow_control(g, berth, some_status(g), some_block_size(g), some_stmin(g));
        break;
    default:
        if (tx->gap_left > 0)
            emit_tick(g);
        else
            emit_turn(g);
        break;
    }
}

/* Up to the turn that answers none; a long transfer without gaps may go on behind it. */
void finish_turns(struct generator *g)
{
    for (int i = 0; i < 400 && anything_due(&g->model.node); i++)
        emit_turn(g);
    emit_turn(g);
}
