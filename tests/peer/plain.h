/*
 * plain.h - one transfer as its list of frames, request W12, and the program that prints it.
 */
#ifndef PLAIN_H
#define PLAIN_H

#include "node.h"

enum { LADDER_WORDS = 3 };      /* LENGTH, BS and STMIN */

/* A rising message from 00 on, and what the taker grants. */
struct transfer {
    int length, block_size, stmin;
};

/* The list while it is being printed; a mutant's list may not end by itself. */
enum { LADDER_MAX = 3000 };
struct ladder {
    int frames;
};

enum direction { THERE, BACK };
void put_rung(struct ladder *ladder, enum direction direction, const uint8_t *frame);

/* plain_engine.c: the request's words in C, for the mutants; the answer is how many bytes are delivered */
int run_plain_engine(const struct transfer *transfer, struct ladder *ladder);
bool mistakes_exchange(void);

/* The program on these words, by two nodes, or by the engine even where there is no mutant. */
void run_plain_ladder(int count, char **words, bool by_engine);

#endif
