/*
 * coverage_changes.c - counts what was seen of the berths' settings, request W3.
 */
#include "counting.h"

/* Of each berth: whether a change has not been in its go yet, and the BS that filled its last block, 0 for none. */
static bool unseen[BERTHS];
static int filled_by[BERTHS];

static bool unlike(const struct berth_settings *a, const struct berth_settings *b)
{
    return a->block_size != b->block_size || a->stmin != b->stmin;
}

static bool berths_unlike(const struct node *node)
{
    for (int k = 1; k < BERTHS; k++)
        if (unlike(&node->set[k], &node->set[0]))
            return true;
    return false;
}

static bool allows(int block_size, int taken)
{
    return block_size == 0 ? taken == 0 : taken < block_size;
}

/* Whether some other berth has a BS that allows, or does not allow, so many frames taken. */
static bool another_says(const struct node *node, int berth, bool allowed)
{
    for (int k = 0; k < BERTHS; k++)
        if (k != berth && allows(node->set[k].block_size, node->rx[berth].taken) == allowed)
            return true;
    return false;
}

/* Settings that are given in another way than by a change have no change to show. */
void follow_settings(const struct node *before, const struct node *after, enum call_kind kind)
{
    bool set_up = kind == SET_UP || kind == HEADER;
    if (set_up && berths_unlike(before))
        count(berths_unlike(after) ? set_up_refused_unlike : set_up_of_unlike);
    for (int k = 0; k < BERTHS; k++) {
        if (!unlike(&before->set[k], &after->set[k]))
            continue;
        unseen[k] = kind == CHANGE;
        filled_by[k] = kind == CHANGE ? filled_by[k] : 0;
    }
}

void cover_go(const struct node *before, int berth)
{
    if (unseen[berth])
        count_berth(go_of_change, berth);
    if (unlike(&before->set[berth], &before->set[(berth + 1) % BERTHS]))
        count_berth(go_of_own, berth);
    unseen[berth] = false;
}

void cover_full_block(const struct node *before, int berth)
{
    int block_size = before->set[berth].block_size;
    if (filled_by[berth] != 0 && filled_by[berth] != block_size)
        count_berth(block_of_change, berth);
    filled_by[berth] = block_size;
}

/* Berths whose settings alone put the node out of order. */
void cover_settings_order(const struct node *before)
{
    for (int k = 0; k < BERTHS; k++) {
        struct node mended = *before;
        if (!stmin_allowed((uint32_t)before->set[k].stmin)) {
            mended.set[k].stmin = 0;
            if (in_order(&mended))
                count_berth(stmin_alone, k);
        } else if (!allows(before->set[k].block_size, before->rx[k].taken) && another_says(before, k, true)) {
            mended.rx[k].taken = 0;
            if (in_order(&mended))
                count_berth(taken_alone, k);
        }
    }
}

/* In a node in order: frames taken that the berth's own BS allows, and another's would not. */
void cover_ranges_kept(const struct node *before)
{
    for (int k = 0; k < BERTHS; k++)
        if (another_says(before, k, false))
            count_berth(taken_by_own, k);
}

static void cover_value(uint32_t parameter, uint32_t value, bool changed)
{
    static const struct {
        enum outcome outcome;
        uint32_t parameter;
        bool changed;
        uint32_t low, high;
    } rules[] = {
        { stmin_00, STMIN, true, 0x00, 0x00 }, { stmin_01_7e, STMIN, true, 0x01, 0x7E },
        { stmin_7f, STMIN, true, 0x7F, 0x7F }, { stmin_f1, STMIN, true, 0xF1, 0xF1 },
        { stmin_f2_f8, STMIN, true, 0xF2, 0xF8 }, { stmin_f9, STMIN, true, 0xF9, 0xF9 },
        { bs_0, BLOCK_SIZE, true, 0, 0 }, { bs_1, BLOCK_SIZE, true, 1, 1 },
        { bs_2_254, BLOCK_SIZE, true, 2, 254 }, { bs_255, BLOCK_SIZE, true, 255, 255 },
        { stmin_80, STMIN, false, 0x80, 0x80 }, { stmin_81_ef, STMIN, false, 0x81, 0xEF },
        { stmin_f0, STMIN, false, 0xF0, 0xF0 }, { stmin_fa, STMIN, false, 0xFA, 0xFA },
        { stmin_fb_ff, STMIN, false, 0xFB, 0xFF }, { stmin_low_byte, STMIN, false, 0x100, 0xFFFF },
        { stmin_low_half, STMIN, false, 0x10000, INT32_MAX }, { stmin_high, STMIN, false, 0x80000000, UINT32_MAX },
        { bs_256, BLOCK_SIZE, false, 0x100, 0x100 }, { bs_low_byte, BLOCK_SIZE, false, 0x101, 0xFFFF },
        { bs_low_half, BLOCK_SIZE, false, 0x10000, INT32_MAX }, { bs_high, BLOCK_SIZE, false, 0x80000000, UINT32_MAX },
    };
    for (size_t i = 0; i < sizeof rules / sizeof rules[0]; i++)
        if (rules[i].parameter == parameter && rules[i].changed == changed
            && within(value, rules[i].low, rules[i].high))
            count(rules[i].outcome);
}

static void cover_changed(const struct world *before, const struct call *call)
{
    const struct node *node = &before->node;
    bool stmin = call->parameter == STMIN;
    cover_value(call->parameter, call->value, true);
    count_receive(stmin ? changed_stmin : changed_bs, &node->rx[call->berth]);
    count_send(stmin ? changed_stmin_beside : changed_bs_beside, &node->tx[call->berth]);
    count_berth(stmin ? changed_stmin_of : changed_bs_of, call->berth);
    if (node->rx[call->berth].last > 0)
        count(changed_beside_message);
    if (before->cards_lent != BERTHS)
        count(changed_without_cards);
    if (!has_ten_areas(node, before->incoming) || !has_ten_areas(node, before->outgoing))
        count(changed_without_stores);
}

/* Each refusal also where the next one, or all behind it, would be met too. */
static void cover_change_refused(const struct node *node, const struct call *call, int refusal)
{
    bool stmin = call->parameter == STMIN, unknown = call->parameter > BLOCK_SIZE;
    const struct receive_side *rx = &node->rx[call->berth % BERTHS];
    switch (refusal) {
    case 1:
        count(call->berth < BERTHS ? change_refused_1 : change_refused_1_and_5);
        cover_order(node);
        break;
    case 5:
        count(unknown ? change_refused_5_and_13 : change_refused_5);
        break;
    case 13:
        count_receive(call->value > BLOCK_MAX ? change_refused_13_and_14 : change_refused_13, rx);
        break;
    case 14:
        cover_value(call->parameter, call->value, false);
        count_receive(stmin ? change_refused_14_stmin : change_refused_14_bs, rx);
        break;
    default:
        count_receive(stmin ? change_refused_15_stmin : change_refused_15_bs, rx);
        count_send(change_refused_15_beside, &node->tx[call->berth]);
        break;
    }
}

void cover_change(const struct world *before, const struct call *call, int refusal)
{
    if (refusal == 0)
        cover_changed(before, call);
    else
        cover_change_refused(&before->node, call, refusal);
}
