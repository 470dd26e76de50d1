/*
 * say.h - an answer as its line of output.
 */
#ifndef SAY_H
#define SAY_H

#include "line.h"
#include "world.h"

/* The berths whose send side reports in an answer, and whose message each was. */
struct named {
    bool reports[BERTHS];
    int party[BERTHS];
};

/* The world is the one after the call. */
void say_answer(struct line *line, enum program program, const struct world *world,
                const struct call *call, const struct answer *answer);

/* A card as the exerciser prints it when it is asked for its cards. */
void say_card_in_words(struct line *line, int berth, const struct card *card);

#endif
