/*
 * generate.h - what the makers of streams share.
 *
 * A generator runs every record that it writes on a model node of its own.
 * So it always knows what the next frame would have to be to make progress,
 * and can choose between that frame and one that must not.
 */
#ifndef GENERATE_H
#define GENERATE_H

#include "dice.h"
#include "world.h"

struct generator {
    struct dice dice;
    enum program program;
    struct world model;
    long left;              /* records still to write; then every emit does nothing */
    struct dice card_dice;  /* apart, so that cards leave the other draws as they are */
    struct dice set_dice;   /* and so do settings */
    struct dice party_dice; /* and parties */
    bool plain;             /* no looks, cards, changes and odd sends between the records of a scenes stream */
};

/* generate.c */
void generate(enum program program, uint64_t seed, long records);
void emit(struct generator *g, const uint8_t *record);
void write_record(struct generator *g, const uint8_t *record);  /* without a card behind it */

/* generate_moves.c: single records, and steps that fit the model's state */
void emit_frame(struct generator *g, int identifier, const uint8_t *data, int length);
void emit_tick(struct generator *g);
void emit_turn(struct generator *g);
void emit_send(struct generator *g, int berth, int length);
void emit_single(struct generator *g, int berth);
void emit_first(struct generator *g, int berth, int total);
void emit_flow_control(struct generator *g, int berth, int status, int block_size, int stmin);
void advance_receive(struct generator *g, int berth);
void advance_send(struct generator *g, int berth);
void finish_turns(struct generator *g);

/* generate_mischief.c: what must be refused, ignored or reported */
void disturb(struct generator *g, int berth);
void emit_ignored(struct generator *g, int berth);
void emit_strange_send(struct generator *g, int berth);

/* generate_stretches.c: runs of records with one purpose, for both programs */
void stretch_of_transfer(struct generator *g);
void stretch_of_crowd(struct generator *g);
void stretch_of_waiting(struct generator *g);
void stretch_of_noise(struct generator *g);
void stretch_of_bad_records(struct generator *g);

/* generate_scenes.c: what only the scenes program can do */
void emit_header(struct generator *g, uint64_t seed);
void emit_good_header(struct generator *g, uint64_t seed);
void emit_receive_side(struct generator *g, int berth, const struct receive_side *rx);
void emit_send_side(struct generator *g, int berth, const struct send_side *tx);
void look(struct generator *g, int berth);
bool usable(const struct world *world);
void settle(struct generator *g);
void stretch_of_scenes(struct generator *g);

/* generate_cards.c: the records of a scenes stream that load, show and lend cards */
void deal_cards(struct generator *g, int berth);
void deal_whole_card(struct generator *g, int berth);

/* generate_changes.c: the records of a scenes stream that change or load the settings of a berth */
void deal_changes(struct generator *g, int berth);
void emit_settings(struct generator *g, int berth, struct berth_settings set);
void emit_change(struct generator *g, int berth, int parameter, uint32_t value);
void emit_some_change(struct generator *g, int berth);
void spoil_one_berth(struct generator *g);
struct berth_settings some_settings(struct generator *g);
struct berth_settings settings_that_fit(struct generator *g, const struct receive_side *rx);
int some_reserved_stmin(struct generator *g);

/* generate_settings.c: scenes streams of changes, in every state of both sides */
void generate_settings(uint64_t seed, int changes);

/* generate_senders.c: whose the sends of a scenes stream are, and its odd ones */
int some_party(struct generator *g);
int some_strange_party(struct generator *g);
uint8_t party_byte(struct generator *g, const struct send_side *tx);
void deal_senders(struct generator *g, int berth);
void emit_odd_send(struct generator *g, int berth);
void spoil_one_party(struct generator *g);

/* generate_parties.c: scenes streams of sends for both parties, kept and reported in every way */
void generate_parties(uint64_t seed, int sends);

/* generate_free.c: scenes streams in which every berth comes free */
void generate_free(uint64_t seed, int nodes);

/* generate_round.c: scenes streams of turns, with one set of due berths after the other */
void generate_round(uint64_t seed, int sets);

/* generate_journal.c: journals to be read, and requests of the journal's scenes */
void generate_journal(uint64_t seed, long records);
void generate_requests(uint64_t seed, long requests);

/* generate_candump.c: logs to be read; a line has room for TEXT_ROOM bytes, and its length is answered */
enum { TEXT_ROOM = 160 };
void generate_log(uint64_t seed, long lines);
int put_good_line(struct dice *dice, char *text, uint64_t time);
int put_spoilt_line(struct dice *dice, char *text, uint64_t time);
void put_name(struct dice *dice, char *name);
void spoil_name(struct dice *dice, char *name);
int some_identifier(struct dice *dice);
uint64_t some_part(struct dice *dice);      /* of a millisecond, in microseconds */

/* generate_log_records.c: records to be written as a log, and requests of candump's scenes */
void generate_log_records(uint64_t seed, long records);
void generate_line_requests(uint64_t seed, long requests);

/* generate_plain.c: the words of runs of the plain ladder */
void generate_ladders(uint64_t seed, long runs);

#endif
