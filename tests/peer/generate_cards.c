/*
 * generate_cards.c - the records of a scenes stream that load, show and lend cards.
 *
 * They come between the other records, so that every call meets cards of every
 * sort: far from the top, one below it, and frozen by each count.
 */
#include "cards.h"
#include "generate.h"

static void put_value(uint8_t *record, uint32_t value)
{
    for (int i = 6; i >= 3; i--, value >>= 8)
        record[i] = (uint8_t)value;
}

static void emit_count(struct generator *g, int berth, int count, uint32_t value)
{
    uint8_t record[RECORD_BYTES] = { LOAD_COUNT, (uint8_t)berth, (uint8_t)count };
    put_value(record, value);
    write_record(g, record);
}

static void emit_card(struct generator *g, int berth)
{
    write_record(g, (const uint8_t[RECORD_BYTES]){ CARD, (uint8_t)berth });
}

/* Most often one below the top: there the next event freezes the card. */
static uint32_t some_value(struct generator *g)
{
    static const uint32_t values[] = {
        COUNT_TOP - 1, COUNT_TOP - 1, COUNT_TOP - 1, COUNT_TOP - 2, COUNT_TOP, COUNT_TOP,
        0, 9, 0x7FFFFFFF, 0x80000000, 0x01020304,
    };
    return values[roll(&g->card_dice, 11)];
}

/* Every count that froze the card goes down again, most often to where the next event freezes it anew. */
static void thaw(struct generator *g, int berth)
{
    for (int i = 0; i < COUNT_KINDS; i++)
        if (g->model.cards[berth].counts[i] == COUNT_TOP)
            emit_count(g, berth, i, chance(&g->card_dice, 30) ? 0 : COUNT_TOP - 1);
}

/* The counts that the berth's sides are about to raise, or any. */
static int some_count(struct generator *g, int berth)
{
    enum receive_state rx = g->model.node.rx[berth].state;
    bool sending = g->model.node.tx[berth].state != TX_IDLE;
    const int near[] = {
        rx == OWES_GO ? count_failed_2 : rx == AWAITS ? count_failed_4 : count_begun,
        rx == AWAITS ? count_failed_5 : count_too_long,
        rx == OWES_GO || rx == AWAITS ? count_failed_7 : count_delivered,
        sending ? count_sent : count_delivered,
        sending ? count_unsent : count_begun,
    };
    return chance(&g->card_dice, 60) ? near[roll(&g->card_dice, 5)] : roll(&g->card_dice, COUNT_KINDS);
}

static void load_card(struct generator *g, int berth)
{
    if (frozen(&g->model.cards[berth]))
        thaw(g, berth);
    else
        emit_count(g, berth, some_count(g, berth), some_value(g));
}

/* All counts. Those that a tick raises are often near the top, and now and then one of the others freezes the card. */
void deal_whole_card(struct generator *g, int berth)
{
    for (int i = 0; i < COUNT_KINDS; i++) {
        bool by_tick = i == count_failed_2 || i == count_failed_4 || i == count_unsent;
        uint32_t low = (uint32_t)roll(&g->card_dice, 10);
        uint32_t value = chance(&g->card_dice, 98) ? low : COUNT_TOP;
        emit_count(g, berth, i, by_tick && chance(&g->card_dice, 50) ? some_value(g) : value);
    }
}

/* Few calls are to be refused for their cards, so an odd number of them does not stay long. */
static void lend_some(struct generator *g)
{
    static const int numbers[] = { 9, 9, 11, 11, 0, 1, 8, 12, 12, 10, 13, 255 };
    int number = numbers[roll(&g->card_dice, 12)];
    write_record(g, (const uint8_t[RECORD_BYTES]){ LEND_CARDS, (uint8_t)number });
}

static void lend_ten(struct generator *g)
{
    write_record(g, (const uint8_t[RECORD_BYTES]){ LEND_CARDS, BERTHS });
}

/* At the edge of what is good: a berth of 9 or 10, a count of 8 or 9, a byte that may be unused. */
static void emit_edge_record(struct generator *g)
{
    uint8_t record[RECORD_BYTES] = { (uint8_t)between(&g->card_dice, LOAD_COUNT, LEND_CARDS) };
    record[1] = (uint8_t)between(&g->card_dice, 8, 13);
    if (record[0] == LOAD_COUNT)
        record[2] = (uint8_t)between(&g->card_dice, 7, 10);
    if (chance(&g->card_dice, 40))
        record[roll(&g->card_dice, RECORD_BYTES)] = (uint8_t)roll(&g->card_dice, 256);
    write_record(g, record);
}

void deal_cards(struct generator *g, int berth)
{
    int kind = roll(&g->card_dice, 1000);
    if (g->model.cards_lent != BERTHS && chance(&g->card_dice, 20))
        lend_ten(g);
    if (kind < 60)
        emit_card(g, berth);
    else if (kind < 70)
        emit_card(g, roll(&g->card_dice, BERTHS));
    else if (kind < 110)
        load_card(g, chance(&g->card_dice, 50) ? berth : roll(&g->card_dice, BERTHS));
    else if (kind < 115)
        lend_some(g);
    else if (kind < 120)
        emit_edge_record(g);
}
