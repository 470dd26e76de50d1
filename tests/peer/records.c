/*
 * records.c - from a record's bytes to a call, or to `bad`.
 *
 * A record is judged before any call is made: a field out of the record's own
 * range or an unused byte that is not zero makes it bad, whatever the node holds.
 */
#include "mutants.h"
#include "records.h"

static uint64_t number(const uint8_t *record, int from, int to)
{
    uint64_t value = 0;
    for (int i = from; i <= to; i++)
        value = value << 8 | record[i];
    return value;
}

static bool zeros(const uint8_t *record, int from, int to)
{
    for (int i = from; i <= to; i++)
        if (record[i] != 0)
            return false;
    return true;
}

static bool read_frame(enum program program, const uint8_t *r, struct call *call)
{
    call->identifier = (int)number(r, 2, 3);
    call->length = r[4];
    if (call->length > (program == EXERCISER ? FRAME_BYTES : DATA_MAX))
        return false;
    for (int i = 0; i < FRAME_BYTES; i++)
        call->data[i] = r[8 + i];
    return zeros(r, 1, 1) && zeros(r, 5, 7) && zeros(r, 8 + call->length, 15);
}

/* A tick, and the question for the node, have no fields. */
static bool read_bare(enum program program, const uint8_t *r, struct call *call)
{
    (void)program, (void)call;
    return zeros(r, 1, 15);
}

/* The first byte is a field even where the message is empty. The exerciser sends for the scheduler. */
static bool read_send(enum program program, const uint8_t *r, struct call *call)
{
    bool names = program == SCENES || mistake(W6e2);
    call->berth = r[1];
    call->length = (int)number(r, 2, 3);
    call->rising_from = r[8];
    call->party = names ? r[9] : SCHEDULER;
    if (call->length > (program == EXERCISER ? 1001 : MESSAGE_MAX) || (mistake(W6j1) && call->party > LAPTOP))
        return false;
    return zeros(r, 4, 7) && zeros(r, names ? rule(10, W6j13, 11) : 9, 15);
}

static bool read_turn(enum program program, const uint8_t *r, struct call *call)
{
    if (!zeros(r, 2, 15) || (program == EXERCISER && r[1] != 0))
        return false;
    call->buffer = r[1] == 0 ? FRAME_BYTES : r[1] == 255 ? 0 : r[1];
    return call->buffer <= BUFFER_MAX;
}

static bool read_show(enum program program, const uint8_t *r, struct call *call)
{
    (void)program;
    call->berth = r[1];
    call->choice = r[2];
    return call->choice <= 1 && zeros(r, 3, 15);
}

static bool read_dump(enum program program, const uint8_t *r, struct call *call)
{
    return read_show(program, r, call) && call->berth < BERTHS;
}

/* A side keeps only what its state carries; the last length stands beside the state. */
static bool read_load_receive(enum program program, const uint8_t *r, struct call *call)
{
    (void)program;
    call->berth = r[1];
    if (call->berth >= BERTHS || r[2] > AWAITS || !zeros(r, 13, 15))
        return false;
    struct receive_side *rx = &call->rx;
    rx->state = r[2];
    rx->last = (int)number(r, 11, 12);
    if (rx->state != RX_IDLE)
        rx->timer = (int)number(r, 9, 10);
    if (rx->state == OWES_GO || rx->state == AWAITS) {
        rx->total = (int)number(r, 3, 4);
        rx->got = (int)number(r, 5, 6);
        rx->sn = r[7];
        rx->taken = r[8];
    }
    return true;
}

/* The mistakes of a record that has its own mind about the party. */
static bool mistaken_party_byte(const uint8_t *r)
{
    return (mistake(W6j2) && r[14] > LAPTOP) || (mistake(W6j6) && r[2] == TX_IDLE && r[14] != 0);
}

static int loaded_party(uint8_t byte)
{
    return rule(rule(byte, W6j3, SCHEDULER), W6j4, byte > LAPTOP ? LAPTOP : byte);
}

/* Any party: what the node makes of it is its business. */
static bool read_load_send(enum program program, const uint8_t *r, struct call *call)
{
    (void)program;
    call->berth = r[1];
    if (call->berth >= BERTHS || r[2] > CONSECUTIVE || !zeros(r, rule(15, W6j12, 16), 15) || mistaken_party_byte(r))
        return false;
    struct send_side *tx = &call->tx;
    tx->state = r[2];
    if (tx->state != TX_IDLE) {
        tx->length = (int)number(r, 3, 4);
        tx->timer = (int)number(r, 12, 13);
    }
    if (tx->state != TX_IDLE || mistake(W6j5))
        tx->party = loaded_party(r[14]);
    if (tx->state == AWAITS_FLOW || tx->state == CONSECUTIVE) {
        tx->position = (int)number(r, 5, 6);
        tx->sn = r[7];
        tx->block_size = r[8];
        tx->sent = r[9];
        tx->gap = r[10];
        tx->gap_left = r[11];
    }
    return true;
}

static int signed_byte(uint8_t byte)
{
    return byte < 128 ? byte : byte - 256;
}

static bool read_load_node(enum program program, const uint8_t *r, struct call *call)
{
    (void)program;
    call->served = r[1];
    call->settings = (struct settings){ (uint32_t)number(r, 2, 3), r[4], r[5] };
    call->incoming_more = signed_byte(r[6]);
    call->outgoing_more = signed_byte(r[7]);
    return zeros(r, 8, 15);
}

/* The state of a berth, or its card. */
static bool read_state(enum program program, const uint8_t *r, struct call *call)
{
    (void)program;
    call->berth = r[1];
    return call->berth < BERTHS && zeros(r, 2, 15);
}

/* The header has no kind, so its fields stand one byte earlier. */
static bool read_settings(const uint8_t *r, int from, struct call *call)
{
    call->settings = (struct settings){
        .area = (uint32_t)number(r, from, from + 3),
        .block_size = (uint32_t)number(r, from + 4, from + 5),
        .stmin = (uint32_t)number(r, from + 6, from + 7),
    };
    return zeros(r, from + 8, 15);
}

static bool read_set_up(enum program program, const uint8_t *r, struct call *call)
{
    (void)program;
    return read_settings(r, 1, call);
}

static bool read_needs(enum program program, const uint8_t *r, struct call *call)
{
    (void)program;
    call->asked = number(r, 1, 8);
    return zeros(r, 9, 15);
}

static bool read_load_count(enum program program, const uint8_t *r, struct call *call)
{
    (void)program;
    call->berth = r[1];
    call->count = r[2];
    call->value = (uint32_t)number(r, 3, 6);
    return call->berth < BERTHS && call->count < COUNT_KINDS && zeros(r, 7, 15);
}

static bool read_lend_cards(enum program program, const uint8_t *r, struct call *call)
{
    (void)program;
    call->cards = r[1];
    return call->cards <= CARDS_MAX && zeros(r, 2, 15);
}

/* Any values: what the node makes of them is its business. */
static bool read_load_settings(enum program program, const uint8_t *r, struct call *call)
{
    (void)program;
    call->berth = r[1];
    call->set = (struct berth_settings){ rule(r[2], W3j4, r[3]), rule(r[3], W3j4, r[2]) };
    return call->berth < BERTHS && zeros(r, 4, 15);
}

static bool read_change(enum program program, const uint8_t *r, struct call *call)
{
    (void)program;
    const uint8_t low_first[] = { r[6], r[5], r[4], r[3] };
    call->berth = r[1];
    call->parameter = r[2];
    call->value = (uint32_t)rule(number(r, 3, 6), W3j5, number(low_first, 0, 3));
    return zeros(r, 7, 15);
}

typedef bool reader(enum program, const uint8_t *, struct call *);

static reader *const readers[] = {
    [FRAME] = read_frame, [TICK] = read_bare, [SEND] = read_send, [TURN] = read_turn,
    [SHOW] = read_show, [DUMP] = read_dump,
    [LOAD_RECEIVE] = read_load_receive, [LOAD_SEND] = read_load_send, [LOAD_NODE] = read_load_node,
    [STATE] = read_state, [NODE] = read_bare, [SET_UP] = read_set_up, [NEEDS] = read_needs,
    [LOAD_COUNT] = read_load_count, [CARD] = read_state, [LEND_CARDS] = read_lend_cards,
    [LOAD_SETTINGS] = read_load_settings, [CHANGE] = read_change,
};

struct call read_record(enum program program, const uint8_t *record)
{
    int last_kind = program == EXERCISER ? TURN : CHANGE;
    struct call call = { .kind = BAD };
    if (record[0] == 0 || record[0] > last_kind)
        return call;
    bool good = readers[record[0]](program, record, &call);
    call.kind = good ? record[0] : BAD;
    return call;
}

struct call read_header(const uint8_t *record)
{
    struct call call = { .kind = BAD };
    bool good = read_settings(record, 0, &call);
    call.kind = good ? HEADER : BAD;
    return call;
}
