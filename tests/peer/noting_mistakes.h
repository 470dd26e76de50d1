/*
 * noting_mistakes.h - what the mutants of request W4 do with the entries of an answer, and with the count of ticks.
 *
 * They watch the exerciser from outside: some entries are lost, some are made
 * up, some have another field or another place. It is all inline, so that a
 * peer without mutants has nothing of it.
 */
#ifndef NOTING_MISTAKES_H
#define NOTING_MISTAKES_H

#include "journal.h"
#include "mutants.h"

struct noted {
    const struct node *before;      /* the call */
    const struct call *call;
    const struct answer *answer;
    uint64_t ticks;
};

/* Frames by the high digit of their first byte */

static inline bool is_single(const uint8_t *data)
{
    return data[0] >> 4 == 0;
}

static inline bool lost_of_frame(const struct noted *n, const struct entry *e, int place)
{
    bool delivered = e->code == N_OK, old = e->code == N_UNEXP_PDU, single = is_single(n->call->data);
    switch (mutant) {
    case MISTAKE_W4a1: return delivered && single;
    case MISTAKE_W4a2: return delivered && !single;
    case MISTAKE_W4a3: return e->code == N_WRONG_SN;
    case MISTAKE_W4a4: return e->code == N_INVALID_FS;
    case MISTAKE_W4a5: return e->code == N_BUFFER_OVFLW;
    case MISTAKE_W4a6: return old;
    case MISTAKE_W4a7: return old && n->answer->frame.word == TOO_LONG;
    case MISTAKE_W4a20: return place > 0;
    default: return false;
    }
}

static inline bool lost_of_tick(const struct noted *n, const struct entries *entries, int place)
{
    const struct entry *e = &entries->at[place];
    bool receive = e->kind == RECEIVE_REPORT;
    switch (mutant) {
    case MISTAKE_W4a17: return receive && n->before->rx[e->berth].state == OWES_OVERFLOW;
    case MISTAKE_W4a18: return e->berth != entries->at[0].berth;
    case MISTAKE_W4a19: return !receive && n->answer->tick.receive_code[e->berth] != 0;
    case MISTAKE_W4a21: return e->berth == BERTHS - 1;
    default: return false;
    }
}

static inline bool lost(const struct noted *n, const struct entries *entries, int place)
{
    bool single = is_single(n->answer->buffer);
    if (n->call->kind == FRAME)
        return lost_of_frame(n, &entries->at[place], place);
    if (n->call->kind == TICK)
        return lost_of_tick(n, entries, place);
    return (mistake(W4a15) && !single) || (mistake(W4a16) && single);
}

static inline void add_made_up(struct entries *entries, uint32_t kind, uint32_t berth, uint32_t code, int length)
{
    entries->at[entries->count++] = (struct entry){ kind, berth, code, (uint32_t)length, 0 };
}

static inline void make_up_for_frame(const struct noted *n, struct entries *entries)
{
    const struct frame_answer *frame = &n->answer->frame;
    uint32_t berth = (uint32_t)frame->berth;
    if (n->answer->refusal != 0 && mistake(W4a11))
        add_made_up(entries, RECEIVE_REPORT, 0, N_WRONG_SN, 0);
    if (n->answer->refusal != 0)
        return;
    if (mistake(W4a8) && frame->word == TOO_LONG)
        add_made_up(entries, RECEIVE_REPORT, berth, N_UNEXP_PDU, 0);
    if (mistake(W4a9) && frame->word == BEGUN)
        add_made_up(entries, RECEIVE_REPORT, berth, N_OK, frame->number);
    if (mistake(W4a10) && frame->word == IGNORED)
        add_made_up(entries, RECEIVE_REPORT, berth, N_WRONG_SN, 0);
    if (mistake(W4a22) && frame->word == GOING)
        add_made_up(entries, SEND_REPORT, berth, N_OK, 0);
}

static inline void make_up(const struct noted *n, struct entries *entries)
{
    const struct turn_answer *turn = &n->answer->turn;
    bool refused = n->answer->refusal != 0;
    if (n->call->kind == FRAME)
        make_up_for_frame(n, entries);
    if (n->call->kind == SEND && mistake(W4a12) && refused)
        add_made_up(entries, SEND_REPORT, 0, N_BUFFER_OVFLW, 0);
    if (n->call->kind == SEND && mistake(W4a13) && !refused)
        add_made_up(entries, SEND_REPORT, (uint32_t)n->call->berth, N_OK, 0);
    if (n->call->kind == TURN && mistake(W4a14) && !refused && !turn->none && turn->code == 0)
        add_made_up(entries, SEND_REPORT, (uint32_t)(turn->identifier - TO_BERTH_0), N_OK, 0);
    for (int k = 0; k < BERTHS && n->call->kind == TICK && mistake(W4a23); k++)
        if (n->answer->tick.receive_code[k] != 0 && n->answer->tick.send_code[k] == 0)
            add_made_up(entries, SEND_REPORT, (uint32_t)k, 0, 0);
}

static inline void mistake_turn_entry(const struct noted *n, struct entry *e)
{
    if (mistake(W4d17))
        e->length = (uint32_t)n->before->tx[e->berth].length;
    if (mistake(W4d20))
        e->berth = (uint32_t)n->before->served;
    if (mistake(W4d21))
        e->berth = (uint32_t)n->answer->turn.passed_over;
}

static inline void mistake_frame_entry(const struct noted *n, struct entry *e)
{
    const struct frame_answer *frame = &n->answer->frame;
    if (mistake(W4d18) && frame->word == DELIVERED)
        e->length = (uint32_t)frame->number;
    if (mistake(W4d19))
        e->length = 0;
    if (mistake(W4d23) && e->kind == SEND_REPORT)
        e->kind = RECEIVE_REPORT;
    if (mistake(W4d24) && e->code == N_WRONG_SN)
        e->kind = SEND_REPORT;
    if (mistake(W4j7))
        e->tick++;
}

static inline void mistake_entry(const struct noted *n, struct entry *e)
{
    if (n->call->kind == TURN)
        mistake_turn_entry(n, e);
    if (n->call->kind == FRAME)
        mistake_frame_entry(n, e);
    if (n->call->kind == TICK && mistake(W4d22))
        e->berth++;
}

/* Where two entries of one answer stand the other way round. */
static inline bool comes_late(const struct entry *a, const struct entry *b, bool tick)
{
    switch (mutant) {
    case MISTAKE_W4e1: return !tick;
    case MISTAKE_W4e2: return a->berth < b->berth;
    case MISTAKE_W4e3: return a->berth == b->berth && tick && a->kind < b->kind;
    case MISTAKE_W4e4: return a->kind > b->kind;
    default: return false;
    }
}

/* Each entry moves before those that come late; the others keep their order. */
static inline void misplace(struct entries *entries, bool tick)
{
    for (int i = 1; i < entries->count; i++) {
        for (int j = i; j > 0 && comes_late(&entries->at[j - 1], &entries->at[j], tick); j--) {
            struct entry kept = entries->at[j];
            entries->at[j] = entries->at[j - 1];
            entries->at[j - 1] = kept;
        }
    }
}

static inline void mistake_noting(const struct noted *n, struct entries *entries)
{
    struct entries left = { .count = 0 };
    for (int i = 0; i < entries->count; i++)
        if (!lost(n, entries, i))
            left.at[left.count++] = entries->at[i];
    make_up(n, &left);
    for (int i = 0; i < left.count; i++) {
        left.at[i].tick = n->ticks;
        mistake_entry(n, &left.at[i]);
    }
    misplace(&left, n->call->kind == TICK);
    *entries = left;
}

/* What a record adds to the count of ticks, before its entries are noted and behind them. */
static inline uint64_t ticks_before_noting(const struct call *call, const uint8_t *record, bool answered, bool reports)
{
    switch (mutant) {
    case MISTAKE_W4j1: return 0;
    case MISTAKE_W4j3: return answered || (call->kind == BAD && record[0] == TICK);
    case MISTAKE_W4j4: return 1;
    case MISTAKE_W4j5: return answered && reports;
    case MISTAKE_W4j6: return answered || call->kind == TURN;
    default: return answered;
    }
}

static inline uint64_t ticks_behind_noting(bool answered)
{
    return mistake(W4j1) && answered;
}

#endif
