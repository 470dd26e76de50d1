/*
 * generate_senders.c - whose the sends of a scenes stream are, and its odd ones, request W6.
 *
 * The odd ones come between the other records, so that a send for the other
 * party, or for nobody, meets every state of the send side, and so that each
 * call meets a node that a party alone puts out of order.
 */
#include "generate.h"

int some_strange_party(struct generator *g)
{
    static const int parties[] = { 2, 2, 3, 127, 128, 254, 255, 255 };
    return chance(&g->party_dice, 90) ? parties[roll(&g->party_dice, 8)] : between(&g->party_dice, LAPTOP + 1, 255);
}

int some_party(struct generator *g)
{
    bool strange = !g->plain && chance(&g->party_dice, 3);
    return strange ? some_strange_party(g) : roll(&g->party_dice, 2);
}

/* What a load of the side has for its party. An idle one has none, so the byte may hold anything. */
uint8_t party_byte(struct generator *g, const struct send_side *tx)
{
    if (tx->state != TX_IDLE)
        return (uint8_t)tx->party;
    return (uint8_t)(chance(&g->party_dice, 30) ? roll(&g->party_dice, 256) : 0);
}

static void see_state(struct generator *g, int berth)
{
    write_record(g, (const uint8_t[RECORD_BYTES]){ STATE, (uint8_t)berth });
}

static int some_length(struct generator *g)
{
    int area = g->model.node.area;
    int most = area < AREA_MAX ? area : AREA_MAX;
    const int lengths[] = { 0, 0, most + 1, most + 1, most, 1, SINGLE_MAX, AREA_MIN };
    return lengths[roll(&g->party_dice, 8)];
}

/* Most often the other one than that of the message under way, or a strange one. */
static int odd_party(struct generator *g, int berth)
{
    int kept = g->model.node.tx[berth].party;
    if (kept > LAPTOP || chance(&g->party_dice, 45))
        return some_strange_party(g);
    return chance(&g->party_dice, 75) ? LAPTOP - kept : kept;
}

/* Any of 5, 18, 6, 7 and 8 may be met, and several at once. */
void emit_odd_send(struct generator *g, int berth)
{
    int length = some_length(g), party = odd_party(g, berth);
    if (chance(&g->party_dice, 8))
        berth = chance(&g->party_dice, 50) ? BERTHS : between(&g->party_dice, BERTHS, 255);
    write_record(g, (const uint8_t[RECORD_BYTES]){
        SEND, (uint8_t)berth, (uint8_t)(length >> 8), (uint8_t)length, 0, 0, 0, 0,
        (uint8_t)roll(&g->party_dice, 256), (uint8_t)party,
    });
}

static void send_and_see(struct generator *g, int berth)
{
    emit_odd_send(g, berth);
    if (chance(&g->party_dice, 50))
        see_state(g, berth);
}

/* The side as it is, but for its party. */
static void load_party(struct generator *g, int berth, int party)
{
    const struct send_side *tx = &g->model.node.tx[berth];
    write_record(g, (const uint8_t[RECORD_BYTES]){
        LOAD_SEND, (uint8_t)berth, (uint8_t)tx->state, (uint8_t)(tx->length >> 8), (uint8_t)tx->length,
        (uint8_t)(tx->position >> 8), (uint8_t)tx->position, (uint8_t)tx->sn, (uint8_t)tx->block_size,
        (uint8_t)tx->sent, (uint8_t)tx->gap, (uint8_t)tx->gap_left, (uint8_t)(tx->timer >> 8), (uint8_t)tx->timer,
        (uint8_t)party,
    });
}

/* Each of the six, for this berth and for any other. */
static void emit_each_call(struct generator *g, int berth)
{
    uint8_t own = (uint8_t)berth, other = (uint8_t)((berth + between(&g->party_dice, 1, BERTHS - 1)) % BERTHS);
    const uint8_t calls[][RECORD_BYTES] = {
        { FRAME, 0, FROM_BERTH_0 >> 8, (FROM_BERTH_0 & 0xFF) + own, 2, 0, 0, 0, 1, own },
        { FRAME, 0, FROM_BERTH_0 >> 8, (FROM_BERTH_0 & 0xFF) + other, 2, 0, 0, 0, 1, other },
        { TICK }, { TURN }, { SHOW, own, SHOW_SENDING }, { SHOW, other, SHOW_ARRIVED },
        { CHANGE, own, STMIN, 0, 0, 0, 1 }, { CHANGE, other, STMIN, 0, 0, 0, 2 },
    };
    for (size_t i = 0; i < sizeof calls / sizeof calls[0]; i++)
        write_record(g, calls[i]);
    emit_odd_send(g, own);
    emit_odd_send(g, other);
}

/* Any, or the next that sends. */
static int berth_to_spoil(struct generator *g)
{
    int from = roll(&g->party_dice, BERTHS);
    for (int i = 0; i < BERTHS; i++)
        if (g->model.node.tx[(from + i) % BERTHS].state != TX_IDLE)
            return (from + i) % BERTHS;
    return from;
}

/* One berth's party alone out of order, which each call for each berth is refused for; then it is as before. */
void spoil_one_party(struct generator *g)
{
    int berth = berth_to_spoil(g), old = g->model.node.tx[berth].party;
    load_party(g, berth, some_strange_party(g));
    emit_each_call(g, berth);
    see_state(g, berth);
    load_party(g, berth, old);
}

/* At the edge of what is good: a byte behind the party that may be unused. */
static void emit_edge_record(struct generator *g, int berth)
{
    bool send = chance(&g->party_dice, 50);
    uint8_t record[RECORD_BYTES] = { send ? SEND : LOAD_SEND, (uint8_t)berth };
    int party = send ? 9 : 14;
    record[3] = send;
    record[party] = (uint8_t)some_strange_party(g);
    if (chance(&g->party_dice, 70))
        record[between(&g->party_dice, party + 1, RECORD_BYTES - 1)] = (uint8_t)roll(&g->party_dice, 256);
    write_record(g, record);
}

void deal_senders(struct generator *g, int berth)
{
    int kind = roll(&g->party_dice, 1000);
    if (kind < 40)
        send_and_see(g, berth);
    else if (kind < 45)
        send_and_see(g, roll(&g->party_dice, BERTHS));
    else if (kind < 49 && usable(&g->model))
        spoil_one_party(g);
    else if (kind < 51)
        emit_edge_record(g, berth);
}
