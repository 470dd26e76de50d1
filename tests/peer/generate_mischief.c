/*
 * generate_mischief.c - frames and sends that must be refused, ignored or reported.
 */
#include "generate.h"

struct mischief {
    struct generator *g;
    int berth;
    uint8_t data[FRAME_BYTES];
};

static int rolled(struct mischief *m, int sides)
{
    return roll(&m->g->dice, sides);
}

static void send_data(struct mischief *m, int length)
{
    emit_frame(m->g, FROM_BERTH_0 + m->berth, m->data, length);
}

static const struct receive_side *receive_side(const struct mischief *m)
{
    return &m->g->model.node.rx[m->berth];
}

static void wrong_sn(struct mischief *m)
{
    m->data[0] = (uint8_t)(0x20 + (receive_side(m)->sn + 1 + rolled(m, 15)) % 16);
    send_data(m, FRAME_BYTES);
}

static void wrong_length(struct mischief *m)
{
    m->data[0] = (uint8_t)(0x20 + receive_side(m)->sn);
    send_data(m, 1 + rolled(m, SINGLE_MAX));
}

static void wrong_sn_and_length(struct mischief *m)
{
    m->data[0] = (uint8_t)(0x20 + rolled(m, 16));
    send_data(m, 1 + rolled(m, FRAME_BYTES));
}

static void sudden_single(struct mischief *m)
{
    int length = 1 + rolled(m, SINGLE_MAX);
    m->data[0] = (uint8_t)length;
    send_data(m, rolled(m, 2) ? FRAME_BYTES : length + 1);
}

static void crooked_single(struct mischief *m)
{
    m->data[0] = (uint8_t)rolled(m, 16);
    send_data(m, 1 + rolled(m, FRAME_BYTES));
}

/* Around A, where Begun turns into TooLong, and around 8, where a first frame starts to be allowed. */
static void sudden_first(struct mischief *m)
{
    int area = m->g->model.node.area;
    const int totals[] = {
        area, area + 1, area - 1,
        1 + rolled(m, SINGLE_MAX), AREA_MIN, AREA_MAX, rolled(m, AREA_MAX + 1), 256, 512,
    };
    int total = totals[rolled(m, 9)] & AREA_MAX;
    m->data[0] = (uint8_t)(0x10 + total / 256);
    m->data[1] = (uint8_t)total;
    send_data(m, rolled(m, 8) ? FRAME_BYTES : 1 + rolled(m, FRAME_BYTES));
}

static void escape_first(struct mischief *m)
{
    const uint32_t lengths[] = {
        0, 7, 8, 20, 4094, 4095, 4096, 4097, 65535, 65536, 65556, 0x00100008, 0x01000008,
        0x7FFFFFFF, 0x80000000, 0x80000008, 0xFFFFFFFF, (uint32_t)roll_bits(&m->g->dice),
    };
    uint32_t length = lengths[rolled(m, 18)];
    m->data[0] = 0x10;
    m->data[1] = 0;
    for (int i = 0; i < 4; i++)
        m->data[2 + i] = (uint8_t)(length >> (24 - 8 * i));
    send_data(m, FRAME_BYTES);
}

static void any_flow_control(struct mischief *m)
{
    m->data[0] = (uint8_t)(0x30 + rolled(m, 16));
    send_data(m, 1 + rolled(m, FRAME_BYTES));
}

static void small_flow_status(struct mischief *m)
{
    m->data[0] = (uint8_t)(0x30 + rolled(m, 4));
    send_data(m, 2 + rolled(m, 3));
}

static void no_data(struct mischief *m)
{
    send_data(m, 0);
}

static void unknown_kind(struct mischief *m)
{
    m->data[0] = (uint8_t)(0x40 + rolled(m, 0xC0));
    send_data(m, 1 + rolled(m, FRAME_BYTES));
}

static void strange_identifier(struct mischief *m)
{
    const int identifiers[] = {
        FROM_BERTH_0 - 1, FROM_BERTH_0 + BERTHS, TO_BERTH_0, TO_BERTH_0 + 9, 0, 0xFFFF,
        0x0540, 0x0740, rolled(m, 0x10000),
    };
    emit_frame(m->g, identifiers[rolled(m, 9)], m->data, rolled(m, FRAME_BYTES + 1));
}

static void strange_send(struct mischief *m)
{
    int area = m->g->model.node.area, longest = m->g->program == EXERCISER ? 1001 : MESSAGE_MAX;
    int length = area + 1 < longest ? area + 1 : longest;
    const int lengths[] = { 0, 0, length, length, 1, 8, rolled(m, longest + 1) };
    int berth = rolled(m, 6) ? m->berth : BERTHS + rolled(m, 246);
    emit_send(m->g, berth, lengths[rolled(m, 7)]);
}

static void noise_frame(struct mischief *m)
{
    int longest = m->g->program == EXERCISER ? FRAME_BYTES : DATA_MAX;
    send_data(m, rolled(m, longest + 1));
}

static void too_much_data(struct mischief *m)
{
    int identifier = FROM_BERTH_0 + (rolled(m, 4) ? m->berth : rolled(m, 64));
    int more = m->g->program == EXERCISER ? 0 : 1 + rolled(m, DATA_MAX - FRAME_BYTES);
    emit_frame(m->g, identifier, m->data, FRAME_BYTES + more);
}

typedef void trick(struct mischief *);

static void play(struct generator *g, int berth, trick *played)
{
    struct mischief m = { .g = g, .berth = berth };
    for (int i = 0; i < FRAME_BYTES; i++)
        m.data[i] = (uint8_t)roll(&g->dice, 256);
    played(&m);
}

void disturb(struct generator *g, int berth)
{
    static trick *const tricks[] = {
        wrong_sn, wrong_length, wrong_sn_and_length, sudden_single, crooked_single, sudden_first,
        escape_first, any_flow_control, small_flow_status, no_data, unknown_kind, strange_identifier,
        strange_send, noise_frame, too_much_data,
    };
    play(g, berth, tricks[roll(&g->dice, 15)]);
}

void emit_strange_send(struct generator *g, int berth)
{
    play(g, berth, strange_send);
}

static void flow_control_of_two(struct mischief *m)
{
    m->data[0] = (uint8_t)(0x30 + rolled(m, 16));
    send_data(m, 1 + rolled(m, 2));
}

static void single_of_none(struct mischief *m)
{
    m->data[0] = (uint8_t)(rolled(m, 2) ? 0 : 8 + rolled(m, 8));
    send_data(m, FRAME_BYTES);
}

static void first_of_seven(struct mischief *m)
{
    m->data[0] = 0x10;
    m->data[1] = (uint8_t)(1 + rolled(m, SINGLE_MAX));
    send_data(m, FRAME_BYTES);
}

static void consecutive_of_none(struct mischief *m)
{
    m->data[0] = (uint8_t)(0x20 + rolled(m, 16));
    send_data(m, 1);
}

/* Frames that are ignored in every state: they must not keep a dead reception alive. */
void emit_ignored(struct generator *g, int berth)
{
    static trick *const tricks[] = {
        no_data, unknown_kind, flow_control_of_two, single_of_none, first_of_seven, consecutive_of_none,
    };
    play(g, berth, tricks[roll(&g->dice, 6)]);
}
