/*
 * cards.h - the cards beside the node: what one event of a berth adds to its card.
 *
 * This is request W1 of paper 02. An event adds at most 1 to each count, and
 * all that it adds is added at once.
 */
#ifndef CARDS_H
#define CARDS_H

#include "node.h"

struct additions {
    bool counts[COUNT_KINDS];
};

/* A list of ten: refusal 12 is for any other length. */
bool has_ten_cards(struct cards cards);

bool frozen(const struct card *card);

/* What one answered call adds; before is the berth's receive side before the call. */
struct additions frame_adds(enum receive_state before, const uint8_t *data, const struct frame_answer *answer);
struct additions tick_adds(enum receive_state before, int receive_code, int send_code);
struct additions turn_adds(const uint8_t *frame, int code);

void add_to_card(struct cards cards, int berth, struct additions adds);

#endif
