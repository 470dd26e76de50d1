/*
 * change.c - the call that changes one setting of one berth, request W3.
 *
 * It takes no store and no cards. A berth that owes overflow or sends may be
 * changed: neither goes by its settings.
 */
#include "change_mistakes.h"
#include "node.h"

static bool value_allowed(uint32_t parameter, uint32_t value)
{
    return parameter == STMIN ? stmin_allowed(value) : value <= BLOCK_MAX;
}

static int change_refusal(const struct node *node, uint32_t berth, uint32_t parameter, uint32_t value)
{
    if (!in_order(node))
        return 1;
    if (berth >= BERTHS)
        return 5;
    if (parameter > BLOCK_SIZE)
        return 13;
    if (!value_allowed(parameter, value))
        return 14;
    enum receive_state state = node->rx[berth].state;
    return state == OWES_GO || state == AWAITS ? 15 : 0;
}

int change(struct node *node, uint32_t berth, uint32_t parameter, uint32_t value)
{
    if (changes_by_mistake())
        return mistaken_change(node, (struct wish){ berth, parameter, value });
    int refusal = change_refusal(node, berth, parameter, value);
    if (refusal != 0)
        return refusal;
    struct berth_settings *set = &node->set[berth];
    if (parameter == STMIN)
        set->stmin = (int)value;
    else
        set->block_size = (int)value;
    return 0;
}
