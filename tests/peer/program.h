/*
 * program.h - the loops over standard input.
 */
#ifndef PROGRAM_H
#define PROGRAM_H

#include "records.h"

/*
 * The exerciser or the scenes program: one line of output for each record, and
 * one for each card behind them if the exerciser is asked for its cards.
 */
void run_program(enum program program, bool with_cards, bool covering);

/* The same input, each record in words. */
void say_records(enum program program);

#endif
