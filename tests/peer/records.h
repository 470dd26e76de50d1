/*
 * records.h - the 16-byte records of the two programs, as calls.
 *
 * The exerciser knows the first four kinds. The scenes program knows all of
 * them and starts with a header, which holds the settings.
 */
#ifndef RECORDS_H
#define RECORDS_H

#include "node.h"

enum program { EXERCISER, SCENES };

enum {
    RECORD_BYTES = 16,
    DATA_MAX = 15,          /* data bytes that a scenes record can announce */
    MESSAGE_MAX = 4096,     /* bytes that a scenes record can send */
    BUFFER_MAX = 32,
    CARDS_MAX = 12,         /* cards that a scenes record can lend */
};

enum call_kind {
    BAD, FRAME, TICK, SEND, TURN,
    SHOW, DUMP, LOAD_RECEIVE, LOAD_SEND, LOAD_NODE, STATE, NODE, SET_UP, NEEDS,
    LOAD_COUNT, CARD, LEND_CARDS,
    LOAD_SETTINGS, CHANGE,
    HEADER,
};

struct settings {
    uint32_t area, block_size, stmin;
};

/* Only the fields of the kind mean anything. */
struct call {
    enum call_kind kind;
    int berth;
    int identifier;
    int length;                     /* of a frame's data or of a message */
    uint8_t data[DATA_MAX];
    uint8_t rising_from;            /* a message's first byte */
    uint32_t party;                 /* whose message it is */
    int buffer;                     /* a turn's buffer length */
    int choice;                     /* 0 incoming, 1 outgoing */
    struct receive_side rx;
    struct send_side tx;
    int served;
    int incoming_more, outgoing_more;   /* lent beyond ten areas, or short of them */
    struct settings settings;
    uint64_t asked;
    int count;                      /* of a card, one of enum count */
    struct berth_settings set;      /* of one berth */
    uint32_t parameter;             /* of a change */
    uint32_t value;                 /* of a count or of a change */
    int cards;                      /* lent from now on */
};

struct call read_header(const uint8_t *record);
struct call read_record(enum program program, const uint8_t *record);

/* One sentence for a record, for whoever looks at a difference. */
void print_words(const struct call *call);

#endif
