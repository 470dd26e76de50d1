/*
 * noting.c - the journal's entries of an answer (request W4), in their order.
 *
 * Only reports become entries: a refused call, an ignored frame, TooLong itself
 * and a frame handed over with code 0 report nothing.
 */
#include "journal.h"

static void add_entry(struct entries *entries, enum entry_kind kind, int berth, int code, int length)
{
    if (code == 0)
        return;
    entries->at[entries->count++] = (struct entry){
        .kind = kind, .berth = (uint32_t)berth, .code = (uint32_t)code, .length = (uint32_t)length,
    };
}

/* A wrong SN ends a reception; the other failures end a message that is being sent. */
static void note_frame(struct entries *entries, const struct frame_answer *frame)
{
    add_entry(entries, RECEIVE_REPORT, frame->berth, frame->old, 0);
    if (frame->word == DELIVERED)
        add_entry(entries, RECEIVE_REPORT, frame->berth, N_OK, frame->number);
    if (frame->word == FAILED && frame->number == N_WRONG_SN)
        add_entry(entries, RECEIVE_REPORT, frame->berth, frame->number, 0);
    if (frame->word == FAILED && frame->number != N_WRONG_SN)
        add_entry(entries, SEND_REPORT, frame->berth, frame->number, 0);
}

static void note_tick(struct entries *entries, const struct tick_answer *tick)
{
    for (int k = 0; k < BERTHS; k++) {
        add_entry(entries, RECEIVE_REPORT, k, tick->receive_code[k], 0);
        add_entry(entries, SEND_REPORT, k, tick->send_code[k], 0);
    }
}

static void note_turn(struct entries *entries, const struct turn_answer *turn)
{
    if (!turn->none)
        add_entry(entries, SEND_REPORT, turn->identifier - TO_BERTH_0, turn->code, 0);
}

struct entries entries_of(const struct call *call, const struct answer *answer, uint64_t ticks)
{
    struct entries entries = { .count = 0 };
    if (answer->refusal != 0)
        return entries;
    if (call->kind == FRAME)
        note_frame(&entries, &answer->frame);
    if (call->kind == TICK)
        note_tick(&entries, &answer->tick);
    if (call->kind == TURN)
        note_turn(&entries, &answer->turn);
    for (int i = 0; i < entries.count; i++)
        entries.at[i].tick = ticks;
    return entries;
}
