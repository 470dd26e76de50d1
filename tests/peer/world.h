/*
 * world.h - a node with its two stores and its cards, and what one record does to them.
 */
#ifndef WORLD_H
#define WORLD_H

#include "records.h"

struct world {
    struct node node;
    int area;                           /* the header's A, 0 if the header was refused */
    struct bytes incoming, outgoing;    /* as they are lent now */
    struct card cards[CARDS_MAX];
    int cards_lent;                     /* the first so many */
};

/* Only the fields of the call's kind mean anything. */
struct answer {
    int refusal;
    struct frame_answer frame;
    struct tick_answer tick;
    struct turn_answer turn;
    uint8_t buffer[BUFFER_MAX];         /* as a turn left it */
    struct bytes part;                  /* of a store, shown or dumped */
    int needs;
    struct card card;                   /* as it was shown */
};

/* The world of the exerciser, or of a scenes stream before its header. */
void open_world(struct world *world, enum program program);
void close_world(struct world *world);

struct answer perform(struct world *world, const struct call *call);

#endif
