/*
 * counting.h - what the files of the coverage share: the outcomes, and how one is counted.
 */
#ifndef COUNTING_H
#define COUNTING_H

#include "outcomes.h"
#include "world.h"

#define X_FAULT(id, programs, side, states, sentence) id,
#define X_COUNT(id, programs, side, states, sentence) id,
#define AS_ID(id, programs, side, states, sentence) id,
enum outcome {
    NODE_OUTCOMES(AS_ID) CHANGE_OUTCOMES(AS_ID) PARTY_OUTCOMES(AS_ID) FAULTS(AS_OUTCOME_OF_FAULT)
    RECEIVE_OUTCOMES(AS_ID) SEND_OUTCOMES(AS_ID) PARTY_SEND_OUTCOMES(AS_ID) BERTH_OUTCOMES(AS_ID)
    PARTY_BERTH_OUTCOMES(AS_ID) COUNTS(AS_OUTCOME_OF_COUNT)
    OUTCOME_COUNT
};
#undef X_FAULT
#undef X_COUNT
#undef AS_ID

/* Of the node as a whole, in the state of a side, and of one of the ten berths. */
void count(enum outcome outcome);
void count_receive(enum outcome outcome, const struct receive_side *rx);
void count_send(enum outcome outcome, const struct send_side *tx);
void count_berth(enum outcome outcome, int berth);

bool within(uint32_t value, uint32_t low, uint32_t high);

/* The range that a node out of order breaks; asked for where a call is refused with 1. */
void cover_order(const struct node *before);

/* coverage_changes.c: the settings of the berths, request W3 */
void cover_change(const struct world *before, const struct call *call, int refusal);
void cover_settings_order(const struct node *before);
void cover_ranges_kept(const struct node *before);
void cover_go(const struct node *before, int berth);
void cover_full_block(const struct node *before, int berth);
void follow_settings(const struct node *before, const struct node *after, enum call_kind kind);

/* coverage_parties.c: whose messages they are, request W6 */
void cover_parties(const struct node *before, const struct node *after, const struct call *call,
                   const struct answer *answer);

#endif
