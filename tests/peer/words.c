/*
 * words.c - a record in words, for whoever looks at a difference.
 */
#include <stdio.h>

#include "records.h"

static const char *store_name(int choice)
{
    return choice == 0 ? "incoming" : "outgoing";
}

static void say_frame(const struct call *call)
{
    static const char *const kinds[] = { "single", "first", "consecutive", "flow control" };
    const char *kind = call->length == 0 ? "without data"
                     : call->data[0] >> 4 < 4 ? kinds[call->data[0] >> 4] : "of an unknown kind";
    printf("frame on %04X, %s, %d bytes:", call->identifier, kind, call->length);
    for (int i = 0; i < call->length; i++)
        printf(" %02X", call->data[i]);
    puts("");
}

static void say_load_receive(const struct call *call)
{
    static const char *const states[] = { "idle", "owes overflow", "owes go", "awaits" };
    const struct receive_side *rx = &call->rx;
    printf("load receive side of berth %d: %s, total %d, got %d, SN %d, taken %d, timer %d, last %d\n",
           call->berth, states[rx->state], rx->total, rx->got, rx->sn, rx->taken, rx->timer, rx->last);
}

static void say_load_send(const struct call *call)
{
    static const char *const states[] = {
        "idle", "single due", "first due", "awaits flow control", "consecutive",
    };
    const struct send_side *tx = &call->tx;
    printf("load send side of berth %d: %s, length %d, position %d, SN %d, peer's block size %d, "
           "sent %d, gap %d, gap left %d, timer %d, party %d\n",
           call->berth, states[tx->state], tx->length, tx->position, tx->sn, tx->block_size,
           tx->sent, tx->gap, tx->gap_left, tx->timer, tx->party);
}

static void say_settings(const char *what, const struct call *call)
{
    printf("%s: A %lu, BS %lu, STmin %02lX\n", what, (unsigned long)call->settings.area,
           (unsigned long)call->settings.block_size, (unsigned long)call->settings.stmin);
}

static void say_cards_record(const struct call *call)
{
    if (call->kind == LOAD_COUNT)
        printf("load count %d of berth %d's card: %lu\n", call->count, call->berth, (unsigned long)call->value);
    else if (call->kind == CARD)
        printf("card of berth %d\n", call->berth);
    else
        printf("lend %d cards from now on\n", call->cards);
}

static void say_berth_settings(const struct call *call)
{
    static const char *const names[] = { "STmin", "BS" };
    const char *name = call->parameter <= BLOCK_SIZE ? names[call->parameter] : "unknown";
    if (call->kind == LOAD_SETTINGS) {
        printf("load settings of berth %d: BS %d, STmin %02X\n", call->berth, call->set.block_size,
               (unsigned)call->set.stmin);
        return;
    }
    printf("change parameter %lu (%s) of berth %d to %lX hex\n", (unsigned long)call->parameter, name, call->berth,
           (unsigned long)call->value);
}

/* The records that only the scenes program knows. */
static void say_scenes_record(const struct call *call)
{
    switch (call->kind) {
    case SHOW:
        printf("show the %s message of berth %d\n", store_name(call->choice), call->berth);
        break;
    case DUMP:
        printf("dump the %s area of berth %d\n", store_name(call->choice), call->berth);
        break;
    case LOAD_RECEIVE:
        say_load_receive(call);
        break;
    case LOAD_SEND:
        say_load_send(call);
        break;
    case LOAD_NODE:
        printf("load served %d, lend %+d and %+d bytes, ", call->served, call->incoming_more,
               call->outgoing_more);
        say_settings("settings", call);
        break;
    case LOAD_SETTINGS:
    case CHANGE:
        say_berth_settings(call);
        break;
    case STATE:
        printf("state of berth %d\n", call->berth);
        break;
    case NODE:
        puts("the node's own");
        break;
    case NEEDS:
        printf("frames needed for %llu\n", (unsigned long long)call->asked);
        break;
    case HEADER:
    case SET_UP:
        say_settings(call->kind == HEADER ? "header" : "set-up again", call);
        break;
    default:
        say_cards_record(call);
        break;
    }
}

void print_words(const struct call *call)
{
    switch (call->kind) {
    case BAD:
        puts("a malformed record");
        break;
    case FRAME:
        say_frame(call);
        break;
    case TICK:
        puts("tick");
        break;
    case SEND:
        printf("send to %d, length %d, from %02X, party %d\n", call->berth, call->length, call->rising_from,
               (int)call->party);
        break;
    case TURN:
        printf("turn with a buffer of %d bytes\n", call->buffer);
        break;
    default:
        say_scenes_record(call);
        break;
    }
}
