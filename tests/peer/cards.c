/*
 * cards.c - the cards beside the node: what one event of a berth adds to its card.
 *
 * The rules stand by themselves; the mutants change what they have found.
 */
#include "cards.h"
#include "mutants.h"

bool has_ten_cards(struct cards cards)
{
    return cards.length == BERTHS || (mistake(W1g4) && cards.length > BERTHS)
        || (mistake(W1g20) && cards.length == BERTHS - 1);
}

bool frozen(const struct card *card)
{
    for (int i = 0; i < COUNT_KINDS; i++)
        if (card->counts[i] >= rule(COUNT_TOP, W1f3, COUNT_TOP - 1) && mutant != never_freezes(i))
            return true;
    return false;
}

static bool reception(enum receive_state state)
{
    return state == OWES_GO || state == AWAITS;
}

static void mistakes_about_receptions(enum receive_state before, bool single, const struct frame_answer *answer,
                                      bool *counts)
{
    bool delivered = answer->word == DELIVERED;
    if ((mistake(W1b1) && delivered && single) || (mistake(W1b3) && answer->word == BEGUN))
        counts[count_begun] = false;
    if ((mistake(W1b2) && delivered && single) || (mistake(W1b4) && delivered && !single))
        counts[count_delivered] = false;
    if (mistake(W1b5) && delivered)
        counts[count_begun] = true;
    if ((mistake(W1c1) && delivered) || (mistake(W1c2) && answer->word == BEGUN))
        counts[count_failed_7] = false;
    if (mistake(W1c4) && answer->old != 0)
        counts[count_begun] = counts[count_delivered] = false;
    if (mistake(W1c5) && before == OWES_OVERFLOW && answer->word <= TOO_LONG && answer->word != IGNORED)
        counts[count_failed_7] = true;
}

static void mistakes_about_failures(const struct frame_answer *answer, bool *counts)
{
    bool failed = answer->word == FAILED;
    if (mistake(W1c3) && answer->word == TOO_LONG)
        counts[count_failed_7] = false;
    if (mistake(W1c6) && counts[count_failed_5]) {
        counts[count_failed_5] = false;
        counts[count_failed_7] = true;
    }
    if (mistake(W1d1) && answer->old != 0)
        counts[count_too_long] = false;
    if (mistake(W1d2) && answer->word == TOO_LONG)
        counts[count_begun] = true;
    if (mistake(W1d3))
        counts[count_too_long] = false;
    if ((mistake(W1e4) && answer->number == N_INVALID_FS) || (mistake(W1e5) && answer->number == N_BUFFER_OVFLW))
        counts[count_unsent] = counts[count_unsent] && !failed;
    if (mistake(W1e8) && failed)
        counts[count_failed_5] = true;
}

/* A single frame by its kind: with other frames its length may say less. */
struct additions frame_adds(enum receive_state before, const uint8_t *data, const struct frame_answer *answer)
{
    bool single = data[0] >> 4 == 0;
    bool failed = answer->word == FAILED;
    struct additions adds = { .counts = {
        [count_begun] = answer->word == BEGUN || (answer->word == DELIVERED && single),
        [count_delivered] = answer->word == DELIVERED,
        [count_failed_5] = failed && answer->number == N_WRONG_SN,
        [count_failed_7] = answer->old == N_UNEXP_PDU,
        [count_too_long] = answer->word == TOO_LONG,
        [count_unsent] = failed && (answer->number == N_INVALID_FS || answer->number == N_BUFFER_OVFLW),
    } };
    mistakes_about_receptions(before, single, answer, adds.counts);
    mistakes_about_failures(answer, adds.counts);
    return adds;
}

static void mistakes_in_tick(enum receive_state before, int receive_code, int send_code, bool *counts)
{
    if (mistake(W1c7) && before == OWES_OVERFLOW && receive_code != 0)
        counts[count_failed_2] = true;
    if (mistake(W1c8) && before == OWES_GO)
        counts[count_failed_2] = false;
    if (mistake(W1c9) && counts[count_failed_4]) {
        counts[count_failed_4] = false;
        counts[count_failed_2] = true;
    }
    if (mistake(W13e2) && send_code == N_TIMEOUT_A) {
        counts[count_unsent] = false;
        counts[count_failed_2] = true;
    }
    if ((mistake(W1e6) && send_code == N_TIMEOUT_A) || (mistake(W1e7) && send_code == N_TIMEOUT_Bs)
        || (mistake(W1e9) && receive_code != 0) || (mistake(W13e1) && receive_code == 0))
        counts[count_unsent] = false;
}

/* Code 2 of an owed overflow ends no reception. */
struct additions tick_adds(enum receive_state before, int receive_code, int send_code)
{
    struct additions adds = { .counts = {
        [count_failed_2] = reception(before) && receive_code == N_TIMEOUT_A,
        [count_failed_4] = reception(before) && receive_code == N_TIMEOUT_Cr,
        [count_unsent] = send_code != 0,
    } };
    mistakes_in_tick(before, receive_code, send_code, adds.counts);
    return adds;
}

struct additions turn_adds(const uint8_t *frame, int code)
{
    bool flow = frame[0] >> 4 == 3, last_consecutive = frame[0] >> 4 == 2 && code == N_OK;
    struct additions adds = { .counts = { [count_sent] = code == N_OK } };
    if ((mistake(W1e1) && flow) || (mistake(W1e2) && !flow))
        adds.counts[count_sent] = true;
    if (mistake(W1e3) && last_consecutive)
        adds.counts[count_sent] = false;
    if (mistake(W1d3) && frame[0] == 0x32)
        adds.counts[count_too_long] = true;
    return adds;
}

static bool any_frozen(struct cards cards)
{
    for (size_t k = 0; k < cards.length; k++)
        if (frozen(&cards.at[k]))
            return true;
    return false;
}

/* A card that is frozen before the call stays wholly as it is. */
void add_to_card(struct cards cards, int berth, struct additions adds)
{
    struct card *card = &cards.at[rule(berth, W1a1, (berth + 1) % BERTHS)];
    bool stays = mistake(W1f5) ? any_frozen(cards) : frozen(card);
    if (stays && !mistake(W1f1) && !mistake(W1f2))
        return;
    for (int i = 0; i < COUNT_KINDS; i++) {
        bool kept = mutant == never_raised(i) || (mistake(W1f2) && card->counts[i] == COUNT_TOP)
                 || (mistake(W1f4) && frozen(card));
        if (adds.counts[i] && !kept)
            card->counts[i]++;
    }
}
