/*
 * plain_engine.c - request W12 in its own words, for the mutants: a cutter, a block, a permission.
 *
 * Without a mutant the peer has its list from two nodes (plain.c), so that it stays another way than the one it is
 * held to; tests/run holds this engine, without a mistake, to that list too.
 */
#include <limits.h>
#include <string.h>

#include "mutants.h"
#include "plain.h"

struct engine {
    const struct transfer *transfer;
    struct ladder *ladder;
    int at;             /* bytes cut off so far */
    int sn;
    int permissions;    /* given so far */
};

bool mistakes_exchange(void)
{
    return mutant >= MISTAKE_W12a1 && mutant <= MISTAKE_W12c9;
}

static int left(const struct engine *e)
{
    return e->transfer->length - e->at;
}

static int byte_at(int place)
{
    return rule(place % 256, W12a16, place % 255);
}

/* A frame of so many control bytes, with the next bytes of the message behind them. */
static void put_frame(struct engine *e, const uint8_t *control, int controls, int bytes, int filler)
{
    uint8_t frame[FRAME_BYTES];
    memset(frame, filler, sizeof frame);
    memcpy(frame, control, (size_t)controls);
    for (int i = 0; i < bytes && controls + i < FRAME_BYTES; i++)
        frame[controls + i] = (uint8_t)byte_at(e->at + i);
    put_rung(e->ladder, THERE, frame);
}

static void send_single(struct engine *e)
{
    uint8_t control[] = { (uint8_t)e->transfer->length };
    put_frame(e, control, 1, e->transfer->length, rule(rule(FILLER, W12a13, 0), W12a14, 0));
    e->at = e->transfer->length;
}

static int told_length(int length)
{
    int swapped = length > 255 ? (length & 0xFF) << 8 | length >> 8 : length;
    int told = rule(rule(length, W12a6, length & 0xFF), W12a7, length & 0x7FF);
    return rule(rule(told, W12a8, length - FIRST_BYTES), W12a19, swapped);
}

static void take_first_off(struct engine *e)
{
    int told = told_length(e->transfer->length);
    uint8_t control[] = { (uint8_t)(0x10 + (told / 256 & 15)), (uint8_t)told };
    put_frame(e, control, 2, FIRST_BYTES, FILLER);
    e->at = rule(rule(FIRST_BYTES, W12a3, FIRST_BYTES + 1), W12a4, FIRST_BYTES - 1);
    e->sn = rule(1, W12a12, 0);
}

static int next_sn(int sn)
{
    if (mistake(W12a9))
        return sn + 1;
    return sn == SN_MAX ? rule(0, W12a10, 1) : mistake(W12a11) && sn == SN_MAX - 1 ? 0 : sn + 1;
}

static void cut_consecutive(struct engine *e)
{
    int room = rule(SINGLE_MAX, W12a5, SINGLE_MAX - 1);
    int count = left(e) < room ? left(e) : room;
    uint8_t control[] = { (uint8_t)(0x20 + e->sn) };
    put_frame(e, control, 1, mistake(W12a17) ? SINGLE_MAX : count, rule(rule(FILLER, W12a13, 0), W12a15, 0));
    e->at += count;
    e->sn = next_sn(e->sn);
}

static int frames_in_block(const struct engine *e)
{
    int size = e->transfer->block_size;
    if (size == 0)
        return mistake(W12b7) ? 1 : mistake(W12b8) ? BLOCK_MAX : mistake(W12b9) ? BLOCK_MAX + 1 : INT_MAX;
    if (mistake(W12b10) && size == BLOCK_MAX)
        return INT_MAX;
    if ((mistake(W12b5) && e->permissions > 1) || mistake(W12b4))
        return size + 1;
    if ((mistake(W12b6) || (mistake(W12b11) && e->permissions == 1)) && size > 1)
        return size - 1;
    if (mistake(W12b12) && e->permissions > 1)
        return INT_MAX;
    int kept = rule(rule(size, W12b13, size & 127), W12b14, size & 15);
    return kept == 0 ? INT_MAX : kept;
}

static void give_permission(struct engine *e);

/* Sends a block, and asks for permission for the next one where bytes are left. */
static void send_block(struct engine *e)
{
    int room = frames_in_block(e), sent = 0;
    while (left(e) > 0 && sent < room) {
        cut_consecutive(e);
        sent++;
    }
    bool full = sent == e->transfer->block_size;
    bool once_more = mistake(W12b1) || (mistake(W12b2) && full);
    if (mistake(W12a18) && left(e) == 0 && (e->transfer->length - FIRST_BYTES) % SINGLE_MAX == 0)
        cut_consecutive(e);
    if (left(e) > 0 || once_more)
        give_permission(e);
}

static void put_go(struct engine *e)
{
    int size = e->transfer->block_size, stmin = e->transfer->stmin;
    bool later = e->permissions > 0;
    uint8_t frame[FRAME_BYTES];
    memset(frame, rule(rule(FILLER, W12a13, 0), W12c2, 0), sizeof frame);
    frame[0] = (uint8_t)(mistake(W12c3) ? 0x31 : rule(0x30, W12c4, 0x32));
    frame[1] = (uint8_t)(mistake(W12c5) && later ? 0 : rule(size, W12c1, stmin));
    frame[2] = (uint8_t)(mistake(W12c6) && later ? 0 : rule(stmin, W12c1, size));
    frame[2] = (uint8_t)(mistake(W12c7) && stmin > 0 ? stmin + 1 : mistake(W12c8) && stmin > 0xF0 ? 1 : frame[2]);
    frame[1] = (uint8_t)(mistake(W12c9) && size == 0 ? BLOCK_MAX : frame[1]);
    put_rung(e->ladder, BACK, frame);
    e->permissions++;
}

static void give_permission(struct engine *e)
{
    bool again = e->permissions > 0;
    if (!(mistake(W12b15) && !again) && !(mistake(W12b18) && e->transfer->block_size == 0))
        put_go(e);
    else
        e->permissions++;
    e->sn = mistake(W12b3) && again ? 1 : mistake(W12b16) && again ? 0 : e->sn;
    if (left(e) > 0 && e->ladder->frames < LADDER_MAX)
        send_block(e);
}

int run_plain_engine(const struct transfer *transfer, struct ladder *ladder)
{
    struct engine e = { .transfer = transfer, .ladder = ladder };
    int single_most = rule(rule(SINGLE_MAX, W12a1, SINGLE_MAX + 1), W12a2, SINGLE_MAX - 1);
    if (transfer->length <= single_most) {
        send_single(&e);
        if (mistake(W12b17))
            put_go(&e);
        return e.at;
    }
    take_first_off(&e);
    give_permission(&e);
    return e.at;
}
