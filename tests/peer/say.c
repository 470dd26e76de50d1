/*
 * say.c - an answer as its line of output.
 */
#include <inttypes.h>

#include "cards.h"
#include "mutants.h"
#include "naming_mistakes.h"
#include "say.h"

static void say_frame(struct line *line, const struct frame_answer *answer)
{
    static const char *const words[] = {
        [IGNORED] = "ignored", [DELIVERED] = "delivered", [BEGUN] = "begun", [TOO_LONG] = "toolong",
        [TOOK] = "took", [GOING] = "going", [WAITING] = "waiting", [FAILED] = "failed",
    };
    enum word word = answer->word;
    line_add(line, "berth %d old %d %s", answer->berth, answer->old, words[word]);
    if (word == IGNORED || word == DELIVERED || word == BEGUN || word == FAILED)
        line_add(line, " %d", answer->number);
}

static void say_tick(struct line *line, const struct tick_answer *answer)
{
    line_add(line, "tick");
    for (int k = 0; k < BERTHS; k++)
        if (answer->receive_code[k] != 0 || answer->send_code[k] != 0)
            line_add(line, " %d:%d:%d", k, answer->receive_code[k], answer->send_code[k]);
}

static void say_turn(struct line *line, const struct answer *answer)
{
    if (answer->turn.none) {
        line_add(line, "none");
        return;
    }
    line_add(line, "frame %04X", answer->turn.identifier);
    line_add_bytes(line, "", answer->buffer, FRAME_BYTES);
    line_add(line, " passed %d code %d", answer->turn.passed_over, answer->turn.code);
}

static void say_receive_side(struct line *line, const struct receive_side *rx)
{
    line_add(line, " rx %d", (int)rx->state);
    if (rx->state == OWES_GO || rx->state == AWAITS)
        line_add(line, " %d %d %d %d", rx->total, rx->got, rx->sn, rx->taken);
    if (rx->state != RX_IDLE)
        line_add(line, " %d", rx->timer);
    line_add(line, " last %d", rx->last);
}

static void say_timer_and_party(struct line *line, const struct send_side *tx, int party)
{
    bool due = tx->state == SINGLE_DUE || tx->state == FIRST_DUE;
    line_add(line, " %d", rule(tx->timer, W6j7, party));
    if (!mistake(W6j11) && !(mistake(W6j9) && due))
        line_add(line, " %d", rule(party, W6j7, tx->timer));
}

static void say_send_side(struct line *line, const struct node *node, int berth)
{
    const struct send_side *tx = &node->tx[berth];
    line_add(line, " tx %d", (int)tx->state);
    if (tx->state != TX_IDLE)
        line_add(line, " %d", tx->length);
    if (tx->state == AWAITS_FLOW || tx->state == CONSECUTIVE)
        line_add(line, " %d %d %d %d %d %d", tx->position, tx->sn, tx->block_size, tx->sent,
                 tx->gap, tx->gap_left);
    if (tx->state != TX_IDLE)
        say_timer_and_party(line, tx, rule(tx->party, W6j10, node->tx[0].party));
    else if (mistake(W6j8))
        line_add(line, " 0");
}

static void say_node(struct line *line, const struct node *node)
{
    line_add(line, "node %d %d", node->area, node->served);
}

static void say_settings(struct line *line, const struct node *node, int berth)
{
    const struct berth_settings *set = &node->set[rule(berth, W3j6, 0)];
    line_add(line, " set %d %d", rule(set->block_size, W3j7, set->stmin), rule(set->stmin, W3j7, set->block_size));
}

static void say_card(struct line *line, const struct card *card)
{
    line_add(line, "card");
    for (int i = 0; i < COUNT_KINDS; i++)
        line_add(line, " %" PRIu32, card->counts[i]);
    if (frozen(card) && !mistake(W1f6))
        line_add(line, " frozen");
}

void say_card_in_words(struct line *line, int berth, const struct card *card)
{
    const uint32_t *n = card->counts;
    line_add(line, "card %d begun %" PRIu32 " delivered %" PRIu32, berth, n[count_begun], n[count_delivered]);
    line_add(line, " failed 2:%" PRIu32 " 4:%" PRIu32 " 5:%" PRIu32 " 7:%" PRIu32, n[count_failed_2],
             n[count_failed_4], n[count_failed_5], n[count_failed_7]);
    line_add(line, " toolong %" PRIu32 " sent %" PRIu32 " unsent %" PRIu32, n[count_too_long], n[count_sent],
             n[count_unsent]);
    if (frozen(card))
        line_add(line, " frozen");
}

/* The records that look at the node or change it without one of its calls. */
static void say_scenes_answer(struct line *line, const struct world *world, const struct call *call,
                              const struct answer *answer)
{
    switch (call->kind) {
    case SHOW:
        line_add_bytes(line, "show", answer->part.at, answer->part.length);
        break;
    case DUMP:
        line_add_bytes(line, "area", answer->part.at, answer->part.length);
        break;
    case STATE:
        line_add(line, "state");
        say_settings(line, &world->node, call->berth);
        say_receive_side(line, &world->node.rx[call->berth]);
        say_send_side(line, &world->node, call->berth);
        break;
    case NODE:
        say_node(line, &world->node);
        break;
    case HEADER:
    case SET_UP:
        line_add(line, "setup");
        break;
    case CARD:
        say_card(line, &answer->card);
        break;
    case CHANGE:
        line_add(line, "changed %d", call->berth);
        break;
    case NEEDS:
        line_add(line, "needs %d", answer->needs);
        break;
    default:
        line_add(line, "loaded");
        break;
    }
}

static void say_answered(struct line *line, const struct world *world, const struct call *call,
                         const struct answer *answer)
{
    switch (call->kind) {
    case BAD:
        line_add(line, "bad");
        break;
    case FRAME:
        say_frame(line, &answer->frame);
        break;
    case TICK:
        say_tick(line, &answer->tick);
        break;
    case SEND:
        line_add(line, "sent %d", call->berth);
        break;
    case TURN:
        say_turn(line, answer);
        break;
    default:
        say_scenes_answer(line, world, call, answer);
        break;
    }
}

static void name_party(struct named *named, int berth, int party)
{
    named->reports[berth] = true;
    named->party[berth] = party;
}

/* Only a report of a send side has a party to name: Failed 5 is the receive side's. */
static struct named named_in(const struct call *call, const struct answer *answer)
{
    struct named named = { .party = { 0 } };
    const struct frame_answer *frame = &answer->frame;
    const struct turn_answer *turn = &answer->turn;
    if (call->kind == FRAME && frame->word == FAILED && frame->number != N_WRONG_SN)
        name_party(&named, frame->berth, frame->party);
    for (int k = 0; k < BERTHS && call->kind == TICK; k++)
        if (answer->tick.send_code[k] != 0)
            name_party(&named, k, answer->tick.party[k]);
    if (call->kind == TURN && turn->code == N_OK)
        name_party(&named, turn->identifier - TO_BERTH_0, turn->party);
    return named;
}

static void say_parties(struct line *line, const struct world *world, const struct call *call,
                        const struct answer *answer)
{
    if (answer->refusal != 0)
        return;
    struct named named = named_in(call, answer);
    mistake_naming(&named, world, call, answer);
    bool first = true;
    for (int i = 0; i < BERTHS; i++) {
        int k = rule(i, W6d26, BERTHS - 1 - i);
        if (!named.reports[k])
            continue;
        line_add(line, first ? " party %d:%d" : " %d:%d", k, named.party[k]);
        first = false;
    }
    if (mistake(W6d28) && first && call->kind == TICK)
        line_add(line, " party");
}

void say_answer(struct line *line, enum program program, const struct world *world,
                const struct call *call, const struct answer *answer)
{
    bool buffer = program == SCENES && call->kind == TURN, parties = program == SCENES || mistake(W6e1);
    if (answer->refusal != 0)
        line_add(line, "refused %d", answer->refusal);
    else
        say_answered(line, world, call, answer);
    if (parties && !(mistake(W6d29) && buffer))
        say_parties(line, world, call, answer);
    if (buffer)
        line_add_bytes(line, " buffer", answer->buffer, (size_t)call->buffer);
    if (mistake(W6d29) && buffer)
        say_parties(line, world, call, answer);
}
