/*
 * node.h - the node of paper 01 and its calls, with the cards of request W1 beside it, the gaps of W2, the
 * settings of W3 and the parties of W6.
 *
 * This is an independent reading of the paper in plain C: it shares no line
 * with the proved node, so that an error would have to be made twice to stay
 * hidden. Names are the paper's words.
 */
#ifndef NODE_H
#define NODE_H

#include <stdbool.h>
#include <stddef.h>
#include <stdint.h>

enum {
    BERTHS = 10,
    AREA_MIN = 8,
    AREA_MAX = 4095,
    BLOCK_MAX = 255,
    STMIN_TICKS_MAX = 0x7F, /* up to here an STmin means so many ticks */
    GAP_MAX = 128,      /* the longest gap, in ticks */
    SN_MAX = 15,
    TIMER_END = 1000,   /* the tick that makes a timer this ends its side */
    SINGLE_MAX = 7,     /* bytes in a single frame, and in a consecutive one */
    FIRST_BYTES = 6,    /* bytes of the message in a first frame */
    FRAME_BYTES = 8,
    FILLER = 0xCC,
    FROM_BERTH_0 = 0x640,
    TO_BERTH_0 = 0x660,
};

enum report {
    N_OK = 1,
    N_TIMEOUT_A = 2,
    N_TIMEOUT_Bs = 3,
    N_TIMEOUT_Cr = 4,
    N_WRONG_SN = 5,
    N_INVALID_FS = 6,
    N_UNEXP_PDU = 7,
    N_BUFFER_OVFLW = 9,
};

/* Who sends a message; no other number is a party. */
enum party { SCHEDULER, LAPTOP };

enum receive_state { RX_IDLE, OWES_OVERFLOW, OWES_GO, AWAITS };
enum send_state { TX_IDLE, SINGLE_DUE, FIRST_DUE, AWAITS_FLOW, CONSECUTIVE };

/* Fields that a state does not carry are 0 here, so that equal nodes are equal bytes. */
struct receive_side {
    enum receive_state state;
    int total, got, sn, taken;
    int timer;
    int last;               /* length of the last message arrived, 0 for none */
};

struct send_side {
    enum send_state state;
    int length, position, sn;
    int block_size, sent;   /* the peer's block size; frames sent in this block */
    int gap, gap_left;      /* the peer's gap and what is left of it, in ticks */
    int timer;
    int party;              /* whose message it is, until it ends */
};

/* A berth's own: what its go frames carry, and what its blocks are counted by. */
struct berth_settings {
    int block_size, stmin;
};

struct node {
    int area;
    int served;
    struct berth_settings set[BERTHS];
    struct receive_side rx[BERTHS];
    struct send_side tx[BERTHS];
};

/* A store, a part of one, or a turn's buffer, as it is lent to a call. */
struct bytes {
    uint8_t *at;
    size_t length;
};

/* What a card counts, in the order in which the programs name it. */
#define COUNTS(X)                                                       \
    X(begun, "receptions begun")                                        \
    X(delivered, "receptions delivered")                                \
    X(failed_2, "receptions failed with code 2")                        \
    X(failed_4, "receptions failed with code 4")                        \
    X(failed_5, "receptions failed with code 5")                        \
    X(failed_7, "receptions failed with code 7")                        \
    X(too_long, "messages turned away as too long")                     \
    X(sent, "messages sent")                                            \
    X(unsent, "messages failed in sending")

#define AS_COUNT(name, sentence) count_##name,
enum count { COUNTS(AS_COUNT) COUNT_KINDS };
#undef AS_COUNT

#define COUNT_TOP UINT32_MAX    /* a count that stands here freezes its card */

struct card {
    uint32_t counts[COUNT_KINDS];
};

/* The list of cards, as it is lent to a call. */
struct cards {
    struct card *at;
    size_t length;
};

enum word { IGNORED, DELIVERED, BEGUN, TOO_LONG, TOOK, GOING, WAITING, FAILED };

/* In every answer a refusal above 0 means that the other fields say nothing. */
struct frame_answer {
    int refusal;
    int berth;
    int old;
    enum word word;
    int number;             /* the length, the code, or the digit after I */
    int party;              /* of a message that Failed 6 or 9 ends, else 0 */
};

struct tick_answer {
    int refusal;
    int receive_code[BERTHS];
    int send_code[BERTHS];
    int party[BERTHS];      /* beside a send code, else 0 */
};

struct turn_answer {
    int refusal;
    bool none;
    int identifier;
    int code;
    int party;              /* beside code 1, else 0 */
    int passed_over;
};

/* Set-up, change and send answer with their refusal alone, 0 for none. */
int set_up(struct node *node, uint32_t area, uint32_t block_size, uint32_t stmin);

/* The parameters of a change, by the numbers that callers give them; no other number is known. */
enum parameter { STMIN, BLOCK_SIZE };
int change(struct node *node, uint32_t berth, uint32_t parameter, uint32_t value);

/* data holds at least FRAME_BYTES readable bytes, whatever the length says. */
struct frame_answer frame_came(struct node *node, struct bytes incoming, struct cards cards, int identifier,
                               const uint8_t *data, int length);

struct tick_answer tick(struct node *node, struct cards cards);

int send_message(struct node *node, struct bytes outgoing, int berth, uint32_t party, struct bytes message);

struct turn_answer call_for_frame(struct node *node, struct bytes outgoing, struct cards cards,
                                  struct bytes buffer);

enum choice { SHOW_ARRIVED, SHOW_SENDING };
struct bytes show_message(const struct node *node, struct bytes incoming, struct bytes outgoing,
                          int berth, enum choice choice);

int frames_needed(uint64_t length);

/* What the calls share. */
bool in_order(const struct node *node);
bool has_ten_areas(const struct node *node, struct bytes store);
bool stmin_allowed(uint32_t stmin);
bool in_tenths(uint32_t stmin);     /* F1 to F9: tenths of a millisecond */
int gap_of(uint8_t stmin);
bool anything_due(const struct node *node);

#endif
