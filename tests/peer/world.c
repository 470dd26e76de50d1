/*
 * world.c - a node with its two stores and its cards, and what one record does to them.
 */
#include <stdlib.h>
#include <string.h>

#include "cards.h"
#include "keeping_mistakes.h"
#include "mutants.h"
#include "world.h"

enum { LENT_MORE_MAX = 127, EMPTY_BUFFER_BYTE = 0xEE };

static struct bytes new_store(int area)
{
    /* A mutant may reach past its area; with room there it shows by its lines, not by a crash. */
    size_t room = mutant == NO_MUTANT ? 0 : 11 * 65536;
    struct bytes store = { .length = (size_t)BERTHS * (size_t)area };
    store.at = calloc(store.length + LENT_MORE_MAX + room, 1);
    if (store.at == NULL)
        abort();
    return store;
}

static void give_stores(struct world *world, int area)
{
    close_world(world);
    world->area = area;
    world->incoming = new_store(area);
    world->outgoing = new_store(area);
}

void open_world(struct world *world, enum program program)
{
    *world = (struct world){ .area = 0, .cards_lent = BERTHS };
    if (program == EXERCISER) {
        set_up(&world->node, 1000, 8, 0);
        give_stores(world, 1000);
    } else {
        give_stores(world, 0);
    }
}

void close_world(struct world *world)
{
    free(world->incoming.at);
    free(world->outgoing.at);
}

static struct cards lent_cards(struct world *world)
{
    return (struct cards){ world->cards, (size_t)world->cards_lent };
}

static void perform_frame(struct world *world, const struct call *call, struct answer *answer)
{
    answer->frame = frame_came(&world->node, world->incoming, lent_cards(world), call->identifier, call->data,
                               call->length);
    answer->refusal = answer->frame.refusal;
}

/* The mistake of a tick that reaches the store. */
static void empty_reported_areas(struct world *world, const struct tick_answer *answer)
{
    size_t area = (size_t)world->node.area;
    for (size_t k = 0; k < BERTHS; k++)
        if (answer->receive_code[k] != 0)
            memset(world->incoming.at + k * area, 0, area);
}

static void perform_tick(struct world *world, struct answer *answer)
{
    answer->tick = tick(&world->node, lent_cards(world));
    answer->refusal = answer->tick.refusal;
    if (mistake(W13d4) && answer->refusal == 0)
        empty_reported_areas(world, &answer->tick);
}

/* The mistake of a list that a call without cards looks at. */
static bool misses_cards(const struct world *world, bool mistaken)
{
    return mistaken && world->cards_lent != BERTHS;
}

static void perform_send(struct world *world, const struct call *call, struct answer *answer)
{
    uint8_t rising[MESSAGE_MAX];
    for (int i = 0; i < call->length; i++)
        rising[i] = (uint8_t)(call->rising_from + i);
    struct bytes message = { rising, (size_t)call->length };
    if (misses_cards(world, mistake(W1g17)))
        answer->refusal = 12;
    else
        answer->refusal = send_message(&world->node, world->outgoing, call->berth, call->party, message);
}

/* The mistakes of a change that looks at a store or at the list; 0 where there is none. */
static int refused_for_what_is_lent(const struct world *world)
{
    const struct node *node = &world->node;
    bool sound = in_order(node);
    if ((mistake(W3d11) && sound && !has_ten_areas(node, world->incoming))
        || (mistake(W3d12) && sound && !has_ten_areas(node, world->outgoing)))
        return 2;
    return misses_cards(world, mistake(W3d10) && sound) ? 12 : 0;
}

/* And of one that writes there. */
static void write_for_change(struct world *world, int berth, int refusal)
{
    struct card *card = &world->cards[berth % BERTHS];
    size_t area = (size_t)world->node.area;
    card->counts[count_sent] += mistake(W3d13) && refusal == 0;
    card->counts[count_failed_7] += mistake(W3d14) && refusal == 15;
    if (mistake(W3d15) && refusal == 0)
        memset(world->incoming.at + (size_t)berth * area, 0, area);
}

static void perform_change(struct world *world, const struct call *call, struct answer *answer)
{
    answer->refusal = refused_for_what_is_lent(world);
    if (answer->refusal == 0)
        answer->refusal = change(&world->node, (uint32_t)call->berth, call->parameter, call->value);
    write_for_change(world, call->berth, answer->refusal);
}

static void perform_turn(struct world *world, const struct call *call, struct answer *answer)
{
    memset(answer->buffer, EMPTY_BUFFER_BYTE, sizeof answer->buffer);
    struct bytes buffer = { answer->buffer, (size_t)call->buffer };
    answer->turn = call_for_frame(&world->node, world->outgoing, lent_cards(world), buffer);
    answer->refusal = answer->turn.refusal;
}

static void perform_show(struct world *world, const struct call *call, struct answer *answer)
{
    answer->part = show_message(&world->node, world->incoming, world->outgoing, call->berth,
                                (enum choice)call->choice);
    if (misses_cards(world, mistake(W1g18)))
        answer->part.length = 0;
}

/* The mistake of cards, or of their number, that do not outlive another record. */
static void forget_cards(struct world *world, bool cards, bool number)
{
    if (cards)
        memset(world->cards, 0, sizeof world->cards);
    if (number)
        world->cards_lent = BERTHS;
}

static void perform_set_up(struct world *world, const struct call *call, struct answer *answer)
{
    const struct settings *settings = &call->settings;
    if (misses_cards(world, mistake(W1g19)))
        answer->refusal = 12;
    else
        answer->refusal = set_up(&world->node, settings->area, settings->block_size, settings->stmin);
    forget_cards(world, mistake(W1j1), mistake(W1j2));
    if (call->kind == HEADER && answer->refusal == 0)
        give_stores(world, (int)settings->area);
}

/* By the header's A, so that a store can be seen whatever the node or the lent length says. */
static struct bytes dumped(const struct world *world, const struct call *call)
{
    struct bytes store = call->choice == 0 ? world->incoming : world->outgoing;
    size_t area = (size_t)world->area;
    return (struct bytes){ store.at + (size_t)call->berth * area, area };
}

/* Only the length changes hands: bytes lent before are still there when they are lent again. */
static void lend(struct bytes *store, int area, int more)
{
    int length = BERTHS * area + more;
    store->length = length < 0 ? 0 : (size_t)length;
}

/* All ten berths alike, as set-up fills them. */
static void load_all_settings(struct node *node, const struct settings *settings)
{
    for (int k = 0; k < rule(rule(BERTHS, W3j1, 1), W3j2, 0); k++)
        node->set[k] = (struct berth_settings){ (int)settings->block_size, (int)settings->stmin };
}

static void load_settings(struct node *node, const struct call *call)
{
    bool missed = mistake(W3j8) && !stmin_allowed((uint32_t)call->set.stmin);
    for (int k = 0; k < BERTHS && !missed; k++)
        if (k == call->berth || mistake(W3j3))
            node->set[k] = call->set;
}

static void load_node(struct world *world, const struct call *call)
{
    world->node.served = call->served;
    world->node.area = (int)call->settings.area;
    load_all_settings(&world->node, &call->settings);
    lend(&world->incoming, world->area, call->incoming_more);
    lend(&world->outgoing, world->area, call->outgoing_more);
    forget_cards(world, mistake(W1j3), mistake(W1j4));
}

/* A berth's card is reached also where it is not lent. */
static void load_count(struct world *world, const struct call *call)
{
    struct card *card = &world->cards[call->berth];
    bool missed = (mistake(W1j5) && call->berth >= world->cards_lent) || (mistake(W1j8) && frozen(card));
    uint32_t v = call->value;
    if (!missed)
        card->counts[call->count] = rule(v, W1j9, v << 24 | (v & 0xFF00) << 8 | (v >> 8 & 0xFF00) | v >> 24);
}

static struct card shown_card(const struct world *world, int berth)
{
    bool missed = mistake(W1j6) && berth >= world->cards_lent;
    return missed ? (struct card){ .counts = { 0 } } : world->cards[berth];
}

static void lend_cards(struct world *world, int number)
{
    world->cards_lent = number;
    for (int k = number; k < CARDS_MAX && mistake(W1j7); k++)
        world->cards[k] = (struct card){ .counts = { 0 } };
}

/* The records that go round the node's calls. */
static void perform_by_hand(struct world *world, const struct call *call)
{
    switch (call->kind) {
    case LOAD_RECEIVE:
        world->node.rx[call->berth] = call->rx;
        break;
    case LOAD_SEND:
        world->node.tx[call->berth] = call->tx;
        break;
    case LOAD_NODE:
        load_node(world, call);
        break;
    case LOAD_SETTINGS:
        load_settings(&world->node, call);
        break;
    case LOAD_COUNT:
        load_count(world, call);
        break;
    case LEND_CARDS:
        lend_cards(world, call->cards);
        break;
    default:
        break;
    }
}

/* The mistake of a number of frames that depends on A has its place here, where an A is at hand. */
static int needs(const struct world *world, uint64_t length)
{
    bool above_area = length > (uint64_t)world->node.area;
    return mistake(31d) && above_area ? 0 : frames_needed(length);
}

static struct answer performed(struct world *world, const struct call *call)
{
    struct answer answer = { .refusal = 0 };
    switch (call->kind) {
    case FRAME:
        perform_frame(world, call, &answer);
        break;
    case TICK:
        perform_tick(world, &answer);
        break;
    case SEND:
        perform_send(world, call, &answer);
        break;
    case TURN:
        perform_turn(world, call, &answer);
        break;
    case SHOW:
        perform_show(world, call, &answer);
        break;
    case DUMP:
        answer.part = dumped(world, call);
        break;
    case HEADER:
    case SET_UP:
        perform_set_up(world, call, &answer);
        break;
    case CHANGE:
        perform_change(world, call, &answer);
        break;
    case CARD:
        answer.card = shown_card(world, call->berth);
        break;
    case NEEDS:
        answer.needs = needs(world, call->asked);
        break;
    default:
        perform_by_hand(world, call);
        break;
    }
    return answer;
}

/* The mutants that lose or mistake a party watch a call from outside: the rules hand it on as it is. */
struct answer perform(struct world *world, const struct call *call)
{
    if (!mistakes_parties())
        return performed(world, call);
    struct world before = *world;
    hide_parties(&world->node, call);
    struct answer answer = performed(world, call);
    mistake_parties(&(struct seen){ &before, world, call, &answer });
    return answer;
}
