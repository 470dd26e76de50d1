/*
 * generate_loads.h - random sides for a scenes stream: in order, or with one field out of its range.
 */
#ifndef GENERATE_LOADS_H
#define GENERATE_LOADS_H

#include "generate.h"
#include "order.h"

/* In order beside the model's A and the berth's settings. */
struct receive_side some_receive_side(struct generator *g, int berth);
struct send_side some_send_side(struct generator *g);

/* With exactly this fault; false if a side of this kind cannot have it beside those. */
bool spoil_receive_side(struct generator *g, enum fault fault, int berth, struct receive_side *rx);
bool spoil_send_side(struct generator *g, enum fault fault, struct send_side *tx);

#endif
