/*
 * keeping_mistakes.h - what the mutants of request W6 do with the party that a send side keeps and a report names.
 *
 * They watch a call from outside, by the world before it and behind it: the rules hand the party on as it is.
 * It is all inline, so that a peer without mutants has nothing of it.
 */
#ifndef KEEPING_MISTAKES_H
#define KEEPING_MISTAKES_H

#include "mutants.h"
#include "world.h"

struct seen {
    const struct world *before;
    struct world *after;
    const struct call *call;
    struct answer *answer;
};

static inline bool mistakes_parties(void)
{
    return mutant >= MISTAKE_W6b1 && mutant <= MISTAKE_W6j15;
}

/* What a call does to a berth whose message goes on. */
enum event {
    NO_EVENT, FIRST_HANDED, MORE_HANDED, BLOCK_FILLED, FLOW_HANDED, OTHERS_TURN, WENT, WAITED, FRAME_IGNORED,
    RECEIVED, GAP_PASSED, TIMER_RAN, CHANGED, SHOWN, SEND_REFUSED_6_OR_7, SEND_REFUSED_8, SEND_REFUSED_18,
    CALL_REFUSED, SET_UP_REFUSED, OWN_LOADED, RECEIVE_LOADED,
};

static inline enum event event_of_turn(const struct seen *s, int k)
{
    const struct send_side *was = &s->before->node.tx[k], *is = &s->after->node.tx[k];
    if (s->answer->turn.none)
        return NO_EVENT;
    if (s->answer->turn.identifier != TO_BERTH_0 + k)
        return OTHERS_TURN;
    if (was->position == is->position)
        return FLOW_HANDED;
    if (was->state == FIRST_DUE)
        return FIRST_HANDED;
    return is->state == AWAITS_FLOW ? BLOCK_FILLED : MORE_HANDED;
}

static inline enum event event_of_frame(const struct frame_answer *frame, int k)
{
    enum word word = frame->word;
    if (frame->berth != k)
        return NO_EVENT;
    return word == GOING ? WENT : word == WAITING ? WAITED : word == IGNORED ? FRAME_IGNORED : RECEIVED;
}

static inline enum event event_of_refusal(const struct call *call, int refusal, int k)
{
    if (call->kind == SET_UP)
        return SET_UP_REFUSED;
    if (call->kind != SEND)
        return CALL_REFUSED;
    if (call->berth != k || refusal < 6)
        return NO_EVENT;
    return refusal == 18 ? SEND_REFUSED_18 : refusal == 8 ? SEND_REFUSED_8 : SEND_REFUSED_6_OR_7;
}

/* Of the other records that are about one berth. */
static inline enum event event_of_berth(const struct call *call, int k)
{
    if (call->berth != k)
        return NO_EVENT;
    bool shown = call->kind == SHOW && call->choice == SHOW_SENDING;
    return shown ? SHOWN : call->kind == CHANGE ? CHANGED : call->kind == LOAD_RECEIVE ? RECEIVE_LOADED : NO_EVENT;
}

static inline enum event event_of(const struct seen *s, int k)
{
    const struct call *call = s->call;
    if (s->answer->refusal != 0)
        return event_of_refusal(call, s->answer->refusal, k);
    switch (call->kind) {
    case FRAME:
        return event_of_frame(&s->answer->frame, k);
    case TICK:
        return s->before->node.tx[k].gap_left > 0 ? GAP_PASSED : TIMER_RAN;
    case TURN:
        return event_of_turn(s, k);
    case LOAD_NODE:
        return OWN_LOADED;
    default:
        return event_of_berth(call, k);
    }
}

/* The event that takes a mutant's name off its message, so that it is the scheduler's. */
static inline bool loses_name(enum event event)
{
    static const struct {
        int line;
        enum event event;
    } losses[] = {
        { MISTAKE_W6c1, FIRST_HANDED }, { MISTAKE_W6c2, WENT }, { MISTAKE_W6c3, WAITED }, { MISTAKE_W6c4, MORE_HANDED },
        { MISTAKE_W6c5, BLOCK_FILLED }, { MISTAKE_W6c6, GAP_PASSED }, { MISTAKE_W6c7, TIMER_RAN },
        { MISTAKE_W6c8, FRAME_IGNORED }, { MISTAKE_W6c9, RECEIVED }, { MISTAKE_W6c10, FLOW_HANDED },
        { MISTAKE_W6c11, CHANGED }, { MISTAKE_W6c12, SHOWN }, { MISTAKE_W6c15, SEND_REFUSED_18 },
        { MISTAKE_W6c16, OTHERS_TURN }, { MISTAKE_W6c20, CALL_REFUSED }, { MISTAKE_W6c21, SET_UP_REFUSED },
        { MISTAKE_W6j14, OWN_LOADED }, { MISTAKE_W6j15, RECEIVE_LOADED },
    };
    for (size_t i = 0; i < sizeof losses / sizeof losses[0]; i++)
        if (mutant == losses[i].line && event == losses[i].event)
            return true;
    return false;
}

/* Whether the answer has a report of a send side. */
static inline bool has_report(const struct seen *s)
{
    bool ticked = false;
    for (int k = 0; k < BERTHS && s->call->kind == TICK; k++)
        ticked = ticked || s->answer->tick.send_code[k] != 0;
    return ticked || (s->call->kind == TURN && s->answer->turn.code == N_OK)
        || (s->call->kind == FRAME && s->answer->frame.word == FAILED && s->answer->frame.number != N_WRONG_SN);
}

/* Whose a message is that goes on at berth k. */
static inline int mistaken_name(const struct seen *s, int k, int party)
{
    enum event event = event_of(s, k);
    bool refused = (mistake(W6c13) && event == SEND_REFUSED_8) || (mistake(W6c14) && event == SEND_REFUSED_6_OR_7);
    bool other = (mistake(W6c18) && event == WENT) || (mistake(W6c19) && event == MORE_HANDED);
    if (loses_name(event) || (mistake(W6c22) && has_report(s)))
        return SCHEDULER;
    if (mistake(W6c17) && event == FIRST_HANDED)
        return LAPTOP;
    if (refused)
        return (int)s->call->party;
    return other ? LAPTOP - party : party;
}

static inline bool same_message(const struct seen *s, int k)
{
    bool loaded = s->call->kind == LOAD_SEND && s->call->berth == k;
    return s->before->node.tx[k].state != TX_IDLE && s->after->node.tx[k].state != TX_IDLE && !loaded;
}

/* Behind a send that was answered. */
static inline void mistake_sent(struct node *node, int berth)
{
    static int once[BERTHS], latest;    /* the mistakes of a name that outlives its message */
    struct send_side *tx = &node->tx[berth], *next = &node->tx[(berth + 1) % BERTHS];
    int party = tx->party, earlier = latest;
    bool single = tx->state == SINGLE_DUE;
    once[berth] |= party;
    latest = party;
    if (mistake(W6b1) || (mistake(W6b4) && single) || (mistake(W6b5) && !single) || mistake(W6b6))
        tx->party = SCHEDULER;
    if (mistake(W6b6) && next->state != TX_IDLE)
        next->party = party;
    for (int k = 0; k < BERTHS && mistake(W6b7); k++)
        if (node->tx[k].state != TX_IDLE)
            node->tx[k].party = party;
    tx->party = rule(rule(tx->party, W6b2, LAPTOP), W6b3, LAPTOP - party);
    tx->party = rule(rule(tx->party, W6b8, once[berth]), W6b9, earlier);
}

/* How a message ends, in the order of the mutants that name the scheduler then. */
enum ending { BY_SINGLE, BY_LAST, BY_CODE_2, BY_CODE_3, BY_FAILED_6, BY_FAILED_9 };

/* Whom the sends have named: the last one that was answered, and of each berth the last one, refused or not. */
struct heard {
    int last, asked[BERTHS];
};

static inline int mistaken_report(const struct seen *s, const struct heard *heard, int k, enum ending ending, int party)
{
    const struct node *node = &s->before->node;
    bool turn = ending <= BY_LAST, failed = ending >= BY_FAILED_6;
    if (mutant == MISTAKE_W6d1 + (int)ending)
        return SCHEDULER;
    if ((mistake(W6d7) && turn) || (mistake(W6d8) && !turn && !failed) || (mistake(W6d9) && failed))
        return LAPTOP;
    if (mistake(W6d17) && turn)
        return node->tx[node->served].party;
    party = rule(rule(party, W6d10, LAPTOP - party), W6d11, node->tx[(k + 1) % BERTHS].party);
    return rule(rule(rule(party, W6d12, node->tx[0].party), W6d13, heard->last), W6d14, heard->asked[k]);
}

static inline void mistake_tick(const struct seen *s, const struct heard *heard)
{
    struct tick_answer *tick = &s->answer->tick;
    int first = BERTHS, last = 0;
    for (int k = 0; k < BERTHS; k++) {
        int code = tick->send_code[k];
        if (code == 0)
            continue;
        tick->party[k] = mistaken_report(s, heard, k, code == N_TIMEOUT_A ? BY_CODE_2 : BY_CODE_3, tick->party[k]);
        first = first < BERTHS ? first : k;
        last = k;
    }
    for (int k = 0; k < BERTHS && first < BERTHS; k++)
        tick->party[k] = rule(rule(tick->party[k], W6d15, tick->party[first]), W6d16, tick->party[last]);
}

static inline void mistake_turn(const struct seen *s, const struct heard *heard)
{
    struct turn_answer *turn = &s->answer->turn;
    int berth = turn->identifier - TO_BERTH_0;
    if (turn->code == N_OK) {
        bool single = s->before->node.tx[berth].state == SINGLE_DUE;
        turn->party = mistaken_report(s, heard, berth, single ? BY_SINGLE : BY_LAST, turn->party);
    }
}

static inline void mistake_failed(const struct seen *s, const struct heard *heard)
{
    struct frame_answer *frame = &s->answer->frame;
    enum ending ending = frame->number == N_INVALID_FS ? BY_FAILED_6 : BY_FAILED_9;
    if (frame->word == FAILED && frame->number != N_WRONG_SN)
        frame->party = mistaken_report(s, heard, frame->berth, ending, frame->party);
}

static inline void mistake_reports(const struct seen *s)
{
    static struct heard heard;
    const struct call *call = s->call;
    if (call->kind == SEND && call->berth < BERTHS)
        heard.asked[call->berth] = (int)call->party;
    if (s->answer->refusal != 0)
        return;
    if (call->kind == SEND)
        heard.last = (int)call->party;
    if (call->kind == TICK)
        mistake_tick(s, &heard);
    if (call->kind == TURN && !s->answer->turn.none)
        mistake_turn(s, &heard);
    if (call->kind == FRAME)
        mistake_failed(s, &heard);
}

static inline void uncount(const struct seen *s, int k, enum count count)
{
    s->after->cards[k].counts[count] = s->before->cards[k].counts[count];
}

/* What goes by the party at berth k in a tick, where the laptop's message has ended. */
static inline void laptops_timeout(const struct seen *s, int k)
{
    struct tick_answer *tick = &s->answer->tick;
    if (tick->send_code[k] == 0)
        return;
    if (mistake(W6f3) || mistake(W6f4))
        uncount(s, k, count_unsent);
    if (mistake(W6f4)) {
        s->after->node.tx[k] = s->before->node.tx[k];
        tick->send_code[k] = tick->party[k] = 0;
    }
}

/* And in a frame for a berth at which the laptop sends. */
static inline void laptops_frame(const struct seen *s, int k)
{
    struct send_side *tx = &s->after->node.tx[k];
    enum word word = s->answer->frame.word;
    if (mistake(W6f3) && word == FAILED)
        uncount(s, k, count_unsent);
    tx->gap = mistake(W6f7) && word == GOING ? 0 : tx->gap;
    tx->block_size = mistake(W6f8) && word == GOING ? 0 : tx->block_size;
    tx->timer = mistake(W6f9) && word == WAITING ? s->before->node.tx[k].timer : tx->timer;
}

static inline void laptops_turn(const struct seen *s, int k)
{
    struct turn_answer *turn = &s->answer->turn;
    bool message = s->before->node.rx[k].state != OWES_GO && s->before->node.rx[k].state != OWES_OVERFLOW;
    if (mistake(W6f2) && turn->code == N_OK)
        uncount(s, k, count_sent);
    turn->code = rule(turn->code, W6f10, 0);
    if (mistake(W6f12) && message)
        s->after->node.served = s->before->node.served;
}

static inline void laptops_change(const struct seen *s)
{
    if (mistake(W6f6)) {
        s->after->node = s->before->node;
        s->answer->refusal = 15;
    }
}

/* What goes by the party where nothing should: in the calls that are about a berth at which the laptop sends. */
static inline void mistake_for_laptop(const struct seen *s)
{
    const struct call *call = s->call;
    const struct turn_answer *turn = &s->answer->turn;
    int served = turn->identifier - TO_BERTH_0;
    for (int k = 0; k < BERTHS; k++) {
        const struct send_side *was = &s->before->node.tx[k];
        if (was->state == TX_IDLE || was->party != LAPTOP)
            continue;
        if (call->kind == TICK)
            laptops_timeout(s, k);
        else if (call->kind == FRAME && s->answer->frame.berth == k)
            laptops_frame(s, k);
        else if (call->kind == TURN && !turn->none && served == k)
            laptops_turn(s, k);
        else if (call->kind == CHANGE && call->berth == k)
            laptops_change(s);
        else if (call->kind == SHOW && call->choice == SHOW_SENDING && call->berth == k)
            s->answer->part.length = rule(s->answer->part.length, W6f5, 0);
    }
    if (mistake(W6f11) && call->kind == TURN && turn->code == N_OK)
        s->answer->turn.code = turn->party;
}

/* Whether a call overlooks the party of a berth: wholly, or where it is another berth's than its own. */
static inline bool overlooks(const struct call *call, bool own)
{
    switch (call->kind) {
    case FRAME:
        return mistake(W6h16) || (mistake(W6h10) && !own);
    case SEND:
        return mistake(W6h17) || (mistake(W6h11) && !own);
    case SHOW:
        return mistake(W6h18) || (mistake(W6h12) && !own);
    case CHANGE:
        return mistake(W6h19) || (mistake(W6h13) && !own);
    case TICK:
        return mistake(W6h14);
    default:
        return call->kind == TURN && mistake(W6h15);
    }
}

/* Before the call: what it overlooks is as good as 0. */
static inline void hide_parties(struct node *node, const struct call *call)
{
    int berth = call->kind == FRAME ? call->identifier - FROM_BERTH_0 : call->berth;
    for (int k = 0; k < BERTHS; k++)
        if (node->tx[k].party > LAPTOP && overlooks(call, k == berth))
            node->tx[k].party = SCHEDULER;
}

/* Behind the call. What was hidden stands again where the message goes on. */
static inline void mistake_parties(const struct seen *s)
{
    struct node *node = &s->after->node;
    for (int k = 0; k < BERTHS; k++)
        if (same_message(s, k))
            node->tx[k].party = mistaken_name(s, k, s->before->node.tx[k].party);
    if (s->call->kind == SEND && s->answer->refusal == 0)
        mistake_sent(node, s->call->berth);
    mistake_reports(s);
    if (s->answer->refusal == 0)
        mistake_for_laptop(s);
}

#endif
