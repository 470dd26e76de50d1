/*
 * naming_mistakes.h - what the mutants of request W6 do where a line names the parties of its reports.
 *
 * Without a mutant the line names those of the send sides that report, and nothing else.
 * It is all inline, so that a peer without mutants has nothing of it.
 */
#ifndef NAMING_MISTAKES_H
#define NAMING_MISTAKES_H

#include "mutants.h"
#include "say.h"

/* The message that berth k still sends is named too. */
static inline void name_beside(struct named *named, const struct node *node, int k)
{
    if (node->tx[k].state == TX_IDLE || named->reports[k])
        return;
    named->reports[k] = true;
    named->party[k] = node->tx[k].party;
}

static inline void mistake_naming_in_tick(struct named *named, const struct node *node, const struct tick_answer *tick)
{
    bool any = false;
    for (int k = 0; k < BERTHS; k++) {
        bool reports = named->reports[k];
        if (mistake(W6d18) && any)
            named->reports[k] = false;
        if (mistake(W6d25) && tick->receive_code[k] != 0)
            name_beside(named, node, k);
        any = any || reports;
    }
    for (int k = 0; k < BERTHS && any && mistake(W6d27); k++)
        name_beside(named, node, k);
}

static inline void mistake_naming_in_frame(struct named *named, const struct node *node,
                                           const struct frame_answer *frame)
{
    enum word word = frame->word;
    if ((mistake(W6d22) && word == FAILED && frame->number == N_WRONG_SN) || (mistake(W6d23) && word == GOING)
        || (mistake(W6d24) && word == WAITING))
        name_beside(named, node, frame->berth);
}

static inline void mistake_naming_in_turn(struct named *named, const struct node *node, const struct answer *answer)
{
    bool flow = answer->buffer[0] >> 4 == 3;
    if (!answer->turn.none && ((mistake(W6d20) && !flow) || (mistake(W6d21) && flow)))
        name_beside(named, node, answer->turn.identifier - TO_BERTH_0);
}

static inline void mistake_naming(struct named *named, const struct world *world, const struct call *call,
                                  const struct answer *answer)
{
    const struct node *node = &world->node;
    if (call->kind == TICK)
        mistake_naming_in_tick(named, node, &answer->tick);
    if (call->kind == FRAME)
        mistake_naming_in_frame(named, node, &answer->frame);
    if (call->kind == TURN)
        mistake_naming_in_turn(named, node, answer);
    if (call->kind == SEND && mistake(W6d31))
        name_beside(named, node, call->berth);
    for (int k = 0; k < BERTHS; k++)
        if (mistake(W6d30) || (mistake(W6d19) && named->party[k] == SCHEDULER))
            named->reports[k] = false;
}

#endif
