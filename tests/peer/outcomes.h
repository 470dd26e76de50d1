/*
 * outcomes.h - the outcomes that the tests want to see.
 *
 * Each row has the programs that can show it, the side whose state counts, and
 * the states in which it is wanted, one letter each:
 *   receive side: i idle, o owes overflow, g owes go, a awaits
 *   send side: i idle, s single due, f first due, w awaits flow control,
 *              c consecutive with gap left 0, p consecutive in a pause
 *   the node as a whole: -
 *   a berth: its digit
 * A count of a card has what an event that adds to it did to it:
 *   r raised, t raised to the top, which freezes the card, k kept, as the card was frozen
 * In a state that is not named the outcome is impossible by the paper.
 */
#ifndef OUTCOMES_H
#define OUTCOMES_H

#include "order.h"

#define NODE_OUTCOMES(X)                                                        \
    X(frame_refused_1, ONLY_SCENES, OF_NODE, "-", "frame: refused 1")           \
    X(frame_refused_2, ONLY_SCENES, OF_NODE, "-", "frame: refused 2")           \
    X(frame_refused_3, BOTH, OF_NODE, "-", "frame: refused 3")                  \
    X(frame_refused_12_few, ONLY_SCENES, OF_NODE, "-", "frame: refused 12, fewer than ten") \
    X(frame_refused_12_many, ONLY_SCENES, OF_NODE, "-", "frame: refused 12, more than ten") \
    X(tick_refused_1, ONLY_SCENES, OF_NODE, "-", "tick: refused 1")             \
    X(tick_refused_12_few, ONLY_SCENES, OF_NODE, "-", "tick: refused 12, fewer than ten") \
    X(tick_refused_12_many, ONLY_SCENES, OF_NODE, "-", "tick: refused 12, more than ten") \
    X(send_refused_1, ONLY_SCENES, OF_NODE, "-", "send: refused 1")             \
    X(send_refused_2, ONLY_SCENES, OF_NODE, "-", "send: refused 2")             \
    X(send_refused_5, BOTH, OF_NODE, "-", "send: refused 5")                    \
    X(turn_refused_1, ONLY_SCENES, OF_NODE, "-", "turn: refused 1")             \
    X(turn_refused_2, ONLY_SCENES, OF_NODE, "-", "turn: refused 2")             \
    X(turn_refused_12_few, ONLY_SCENES, OF_NODE, "-", "turn: refused 12, fewer than ten") \
    X(turn_refused_12_many, ONLY_SCENES, OF_NODE, "-", "turn: refused 12, more than ten") \
    X(turn_refused_9_none, ONLY_SCENES, OF_NODE, "-", "turn: refused 9, none due") \
    X(turn_refused_9_due, ONLY_SCENES, OF_NODE, "-", "turn: refused 9, one due") \
    X(set_up_refused_good, ONLY_SCENES, OF_NODE, "-", "set-up: refused 10, node in order") \
    X(set_up_refused_bad, ONLY_SCENES, OF_NODE, "-", "set-up: refused 10, node out of order") \
    X(set_up_good, ONLY_SCENES, OF_NODE, "-", "set-up: node in order")          \
    X(set_up_bad, ONLY_SCENES, OF_NODE, "-", "set-up: node out of order")       \
    X(passed_0, BOTH, OF_NODE, "-", "turn: passed over 0")                      \
    X(passed_1, BOTH, OF_NODE, "-", "turn: passed over 1")                      \
    X(passed_2, BOTH, OF_NODE, "-", "turn: passed over 2")                      \
    X(passed_3, BOTH, OF_NODE, "-", "turn: passed over 3")                      \
    X(passed_4, BOTH, OF_NODE, "-", "turn: passed over 4")                      \
    X(passed_5, BOTH, OF_NODE, "-", "turn: passed over 5")                      \
    X(passed_6, BOTH, OF_NODE, "-", "turn: passed over 6")                      \
    X(passed_7, BOTH, OF_NODE, "-", "turn: passed over 7")                      \
    X(passed_8, BOTH, OF_NODE, "-", "turn: passed over 8")                      \
    X(passed_9, BOTH, OF_NODE, "-", "turn: passed over 9")                      \
    X(passed_10, BOTH, OF_NODE, "-", "turn: none, passed over 10")              \
    X(status_0, BOTH, OF_NODE, "-", "flow control: awaited, status 0")          \
    X(status_1, BOTH, OF_NODE, "-", "flow control: awaited, status 1")          \
    X(status_2, BOTH, OF_NODE, "-", "flow control: awaited, status 2")          \
    X(status_3, BOTH, OF_NODE, "-", "flow control: awaited, status 3")          \
    X(status_4, BOTH, OF_NODE, "-", "flow control: awaited, status 4")          \
    X(status_5, BOTH, OF_NODE, "-", "flow control: awaited, status 5")          \
    X(status_6, BOTH, OF_NODE, "-", "flow control: awaited, status 6")          \
    X(status_7, BOTH, OF_NODE, "-", "flow control: awaited, status 7")          \
    X(status_8, BOTH, OF_NODE, "-", "flow control: awaited, status 8")          \
    X(status_9, BOTH, OF_NODE, "-", "flow control: awaited, status 9")          \
    X(status_10, BOTH, OF_NODE, "-", "flow control: awaited, status 10")        \
    X(status_11, BOTH, OF_NODE, "-", "flow control: awaited, status 11")        \
    X(status_12, BOTH, OF_NODE, "-", "flow control: awaited, status 12")        \
    X(status_13, BOTH, OF_NODE, "-", "flow control: awaited, status 13")        \
    X(status_14, BOTH, OF_NODE, "-", "flow control: awaited, status 14")        \
    X(status_15, BOTH, OF_NODE, "-", "flow control: awaited, status 15")        \
    X(stmin_none, BOTH, OF_NODE, "-", "going: STmin 00, gap 0")                 \
    X(stmin_one, BOTH, OF_NODE, "-", "going: STmin 01, gap 2")                  \
    X(stmin_ticks, BOTH, OF_NODE, "-", "going: STmin 02 to 7E, gap 3 to 127")   \
    X(stmin_longest, BOTH, OF_NODE, "-", "going: STmin 7F, gap 128")            \
    X(stmin_below_ms, BOTH, OF_NODE, "-", "going: STmin F1 to F9, gap 2")       \
    X(stmin_unknown_low, BOTH, OF_NODE, "-", "going: STmin 80 to F0, gap 128")  \
    X(stmin_unknown_high, BOTH, OF_NODE, "-", "going: STmin FA to FF, gap 128") \
    X(going_no_blocks, BOTH, OF_NODE, "-", "going: block size 0")               \
    X(going_blocks_of_1, BOTH, OF_NODE, "-", "going: block size 1")             \
    X(going_blocks, BOTH, OF_NODE, "-", "going: block size above 1")            \
    X(gap_129_awaiting, ONLY_SCENES, OF_NODE, "-", "refused 1: peer's gap 129, awaiting") \
    X(gap_129_consecutive, ONLY_SCENES, OF_NODE, "-", "refused 1: peer's gap 129, consecutive") \
    X(gap_left_129, ONLY_SCENES, OF_NODE, "-", "refused 1: gap left 129")       \
    X(show_no_berth, ONLY_SCENES, OF_NODE, "-", "show: berth above 9")          \
    X(show_bad_node, ONLY_SCENES, OF_NODE, "-", "show: node out of order")      \
    X(show_incoming, ONLY_SCENES, OF_NODE, "-", "show: incoming wrong only")    \
    X(show_outgoing, ONLY_SCENES, OF_NODE, "-", "show: outgoing wrong only")    \
    X(needs_zero, ONLY_SCENES, OF_NODE, "-", "needs: length 0")                 \
    X(needs_single, ONLY_SCENES, OF_NODE, "-", "needs: length 1 to 7")          \
    X(needs_more, ONLY_SCENES, OF_NODE, "-", "needs: length 8 to 4,095")        \
    X(needs_none, ONLY_SCENES, OF_NODE, "-", "needs: length above 4,095")       \
    X(sent_without_cards, ONLY_SCENES, OF_NODE, "-", "send: sent, not ten cards") \
    X(shown_without_cards, ONLY_SCENES, OF_NODE, "-", "show: a message, not ten cards") \
    X(set_up_without_cards, ONLY_SCENES, OF_NODE, "-", "set-up: not ten cards") \
    X(card_shown, ONLY_SCENES, OF_NODE, "-", "card: not frozen")                \
    X(card_shown_frozen, ONLY_SCENES, OF_NODE, "-", "card: frozen")             \
    X(card_shown_unlent, ONLY_SCENES, OF_NODE, "-", "card: shown, not lent")    \
    X(count_loaded_unlent, ONLY_SCENES, OF_NODE, "-", "card: loaded, not lent") \
    X(cards_printed, ONLY_EXERCISER, OF_NODE, "-", "cards: printed at the end") \
    X(record_bad, BOTH, OF_NODE, "-", "record: bad")                            \
    X(record_short, BOTH, OF_NODE, "-", "record: short")

#define CHANGE_OUTCOMES(X)                                                      \
    X(change_refused_1, ONLY_SCENES, OF_NODE, "-", "change: refused 1")         \
    X(change_refused_1_and_5, ONLY_SCENES, OF_NODE, "-", "change: refused 1, berth above 9") \
    X(change_refused_5, ONLY_SCENES, OF_NODE, "-", "change: refused 5")         \
    X(change_refused_5_and_13, ONLY_SCENES, OF_NODE, "-", "change: refused 5, unknown parameter") \
    X(stmin_00, ONLY_SCENES, OF_NODE, "-", "change: STmin 00")                  \
    X(stmin_01_7e, ONLY_SCENES, OF_NODE, "-", "change: STmin 01 to 7E")         \
    X(stmin_7f, ONLY_SCENES, OF_NODE, "-", "change: STmin 7F")                  \
    X(stmin_f1, ONLY_SCENES, OF_NODE, "-", "change: STmin F1")                  \
    X(stmin_f2_f8, ONLY_SCENES, OF_NODE, "-", "change: STmin F2 to F8")         \
    X(stmin_f9, ONLY_SCENES, OF_NODE, "-", "change: STmin F9")                  \
    X(bs_0, ONLY_SCENES, OF_NODE, "-", "change: BS 0")                          \
    X(bs_1, ONLY_SCENES, OF_NODE, "-", "change: BS 1")                          \
    X(bs_2_254, ONLY_SCENES, OF_NODE, "-", "change: BS 2 to 254")               \
    X(bs_255, ONLY_SCENES, OF_NODE, "-", "change: BS 255")                      \
    X(stmin_80, ONLY_SCENES, OF_NODE, "-", "change: refused 14, STmin 80")      \
    X(stmin_81_ef, ONLY_SCENES, OF_NODE, "-", "change: refused 14, STmin 81 to EF") \
    X(stmin_f0, ONLY_SCENES, OF_NODE, "-", "change: refused 14, STmin F0")      \
    X(stmin_fa, ONLY_SCENES, OF_NODE, "-", "change: refused 14, STmin FA")      \
    X(stmin_fb_ff, ONLY_SCENES, OF_NODE, "-", "change: refused 14, STmin FB to FF") \
    X(stmin_low_byte, ONLY_SCENES, OF_NODE, "-", "change: refused 14, STmin of 2 bytes") \
    X(stmin_low_half, ONLY_SCENES, OF_NODE, "-", "change: refused 14, STmin of 4 bytes") \
    X(stmin_high, ONLY_SCENES, OF_NODE, "-", "change: refused 14, STmin's top bit set") \
    X(bs_256, ONLY_SCENES, OF_NODE, "-", "change: refused 14, BS 256")          \
    X(bs_low_byte, ONLY_SCENES, OF_NODE, "-", "change: refused 14, BS of 2 bytes") \
    X(bs_low_half, ONLY_SCENES, OF_NODE, "-", "change: refused 14, BS of 4 bytes") \
    X(bs_high, ONLY_SCENES, OF_NODE, "-", "change: refused 14, BS's top bit set") \
    X(changed_beside_message, ONLY_SCENES, OF_NODE, "-", "change: last length above 0") \
    X(changed_without_cards, ONLY_SCENES, OF_NODE, "-", "change: not ten cards") \
    X(changed_without_stores, ONLY_SCENES, OF_NODE, "-", "change: stores of a wrong length") \
    X(set_up_of_unlike, ONLY_SCENES, OF_NODE, "-", "set-up: unlike berths become alike") \
    X(set_up_refused_unlike, ONLY_SCENES, OF_NODE, "-", "set-up: refused 10, unlike berths")

#define PARTY_OUTCOMES(X)                                                       \
    X(send_1_and_18, ONLY_SCENES, OF_NODE, "-", "send: refused 1, party above 1") \
    X(send_2_and_18, ONLY_SCENES, OF_NODE, "-", "send: refused 2, party above 1") \
    X(send_5_and_18, ONLY_SCENES, OF_NODE, "-", "send: refused 5, party above 1") \
    X(party_2, ONLY_SCENES, OF_NODE, "-", "send: refused 18, party 2")          \
    X(party_3_127, ONLY_SCENES, OF_NODE, "-", "send: refused 18, party 3 to 127") \
    X(party_128_254, ONLY_SCENES, OF_NODE, "-", "send: refused 18, party 128 to 254") \
    X(party_255, ONLY_SCENES, OF_NODE, "-", "send: refused 18, party 255")      \
    X(frame_party_alone, ONLY_SCENES, OF_NODE, "-", "frame: refused 1, a party alone") \
    X(tick_party_alone, ONLY_SCENES, OF_NODE, "-", "tick: refused 1, a party alone") \
    X(send_party_alone, ONLY_SCENES, OF_NODE, "-", "send: refused 1, a party alone") \
    X(turn_party_alone, ONLY_SCENES, OF_NODE, "-", "turn: refused 1, a party alone") \
    X(show_party_alone, ONLY_SCENES, OF_NODE, "-", "show: out of order by a party alone") \
    X(change_party_alone, ONLY_SCENES, OF_NODE, "-", "change: refused 1, a party alone") \
    X(reports_of_both, ONLY_SCENES, OF_NODE, "-", "tick: reports of both parties") \
    X(both_codes_of_laptop, ONLY_SCENES, OF_NODE, "-", "tick: both codes of a berth, laptop's") \
    X(set_up_over_laptop, ONLY_SCENES, OF_NODE, "-", "set-up: over a laptop's message") \
    X(set_up_refused_laptop, ONLY_SCENES, OF_NODE, "-", "set-up: refused 10, laptop's message")

#define AS_OUTCOME_OF_FAULT(name, sentence)                                     \
    X_FAULT(fault_##name, ONLY_SCENES, OF_NODE, "-", "refused 1: " sentence)

#define RECEIVE_OUTCOMES(X)                                                     \
    X(frame_refused_4, ONLY_SCENES, OF_RECEIVE, "ioga", "frame: refused 4")     \
    X(ignored_1, BOTH, OF_RECEIVE, "ioga", "no data: ignored 1")                \
    X(ignored_2, BOTH, OF_RECEIVE, "ioga", "kind 4 to 15: ignored 2")           \
    X(single_ignored, BOTH, OF_RECEIVE, "ioga", "single: ignored 3")            \
    X(single_old_0, BOTH, OF_RECEIVE, "io", "single: delivered, old 0")         \
    X(single_old_7, BOTH, OF_RECEIVE, "ga", "single: delivered, old 7")         \
    X(first_ignored, BOTH, OF_RECEIVE, "ioga", "first: ignored 3")              \
    X(first_old_0, BOTH, OF_RECEIVE, "io", "first: begun, old 0")               \
    X(first_old_7, BOTH, OF_RECEIVE, "ga", "first: begun, old 7")               \
    X(first_of_area, BOTH, OF_RECEIVE, "ioga", "first: begun, length A")        \
    X(too_long_old_0, BOTH, OF_RECEIVE, "io", "first: toolong, old 0")          \
    X(too_long_old_7, BOTH, OF_RECEIVE, "ga", "first: toolong, old 7")          \
    X(too_long_escape, BOTH, OF_RECEIVE, "ioga", "first: toolong by escape")    \
    X(consecutive_ignored_4, BOTH, OF_RECEIVE, "iog", "consecutive: ignored 4") \
    X(consecutive_ignored_3, BOTH, OF_RECEIVE, "a", "consecutive: ignored 3")   \
    X(consecutive_failed, BOTH, OF_RECEIVE, "a", "consecutive: failed 5")       \
    X(took, BOTH, OF_RECEIVE, "a", "consecutive: took")                         \
    X(took_full, BOTH, OF_RECEIVE, "a", "consecutive: took, block full")        \
    X(took_no_blocks, ONLY_SCENES, OF_RECEIVE, "a", "consecutive: took, BS 0")  \
    X(delivered, BOTH, OF_RECEIVE, "a", "consecutive: delivered")               \
    X(delivered_full, BOTH, OF_RECEIVE, "a", "consecutive: delivered, block full") \
    X(take_at_999, BOTH, OF_RECEIVE, "a", "consecutive: right at timer 999")    \
    X(receive_tick, BOTH, OF_RECEIVE, "ioga", "tick: no code")                  \
    X(receive_tick_2, BOTH, OF_RECEIVE, "og", "tick: code 2")                   \
    X(receive_tick_4, BOTH, OF_RECEIVE, "a", "tick: code 4")                    \
    X(turn_overflow, BOTH, OF_RECEIVE, "o", "turn: overflow handed over")       \
    X(turn_go, BOTH, OF_RECEIVE, "g", "turn: go handed over")                   \
    X(turn_flow_at_999, BOTH, OF_RECEIVE, "og", "turn: handed over at timer 999") \
    X(sent_beside, BOTH, OF_RECEIVE, "ioga", "send: sent beside it")            \
    X(change_refused_13, ONLY_SCENES, OF_RECEIVE, "ioga", "change: refused 13") \
    X(change_refused_13_and_14, ONLY_SCENES, OF_RECEIVE, "ioga", "change: refused 13, value above 255") \
    X(change_refused_14_stmin, ONLY_SCENES, OF_RECEIVE, "ioga", "change: refused 14, STmin") \
    X(change_refused_14_bs, ONLY_SCENES, OF_RECEIVE, "ioga", "change: refused 14, BS") \
    X(change_refused_15_stmin, ONLY_SCENES, OF_RECEIVE, "ga", "change: refused 15, STmin") \
    X(change_refused_15_bs, ONLY_SCENES, OF_RECEIVE, "ga", "change: refused 15, BS") \
    X(changed_stmin, ONLY_SCENES, OF_RECEIVE, "io", "change: STmin changed")    \
    X(changed_bs, ONLY_SCENES, OF_RECEIVE, "io", "change: BS changed")          \
    X(show_arrived, ONLY_SCENES, OF_RECEIVE, "io", "show: last message arrived") \
    X(show_no_arrived, ONLY_SCENES, OF_RECEIVE, "ioga", "show: no message arrived")

#define SEND_OUTCOMES(X)                                                        \
    X(flow_ignored_4, BOTH, OF_SEND, "isfcp", "flow control: ignored 4")        \
    X(flow_ignored_3, BOTH, OF_SEND, "w", "flow control: ignored 3")            \
    X(flow_going, BOTH, OF_SEND, "w", "flow control: going")                    \
    X(flow_waiting, BOTH, OF_SEND, "w", "flow control: waiting")                \
    X(flow_failed_9, BOTH, OF_SEND, "w", "flow control: failed 9")              \
    X(flow_failed_6, BOTH, OF_SEND, "w", "flow control: failed 6")              \
    X(flow_at_999, BOTH, OF_SEND, "w", "flow control: obeyed at timer 999")     \
    X(sent, BOTH, OF_SEND, "i", "send: sent")                                   \
    X(send_refused_6, BOTH, OF_SEND, "isfwcp", "send: refused 6")               \
    X(send_refused_7, BOTH, OF_SEND, "isfwcp", "send: refused 7")               \
    X(send_refused_8, BOTH, OF_SEND, "sfwcp", "send: refused 8")                \
    X(send_tick, BOTH, OF_SEND, "isfwcp", "tick: no code")                      \
    X(send_tick_2, BOTH, OF_SEND, "sfc", "tick: code 2")                        \
    X(send_tick_3, BOTH, OF_SEND, "w", "tick: code 3")                          \
    X(tick_peers_gap_128, BOTH, OF_SEND, "wcp", "tick: peer's gap 128")         \
    X(tick_gap_left_128, BOTH, OF_SEND, "p", "tick: gap left 128")              \
    X(tick_gap_left_1, BOTH, OF_SEND, "p", "tick: gap left 1")                  \
    X(turn_single, BOTH, OF_SEND, "s", "turn: single handed over")              \
    X(turn_first, BOTH, OF_SEND, "f", "turn: first handed over")                \
    X(turn_more, BOTH, OF_SEND, "c", "turn: consecutive, more to go")           \
    X(turn_no_gap, BOTH, OF_SEND, "c", "turn: consecutive, then gap left 0")    \
    X(turn_longest_gap, BOTH, OF_SEND, "c", "turn: consecutive, then gap left 128") \
    X(turn_full, BOTH, OF_SEND, "c", "turn: consecutive, block full")           \
    X(turn_last, BOTH, OF_SEND, "c", "turn: consecutive, last")                 \
    X(turn_last_full, BOTH, OF_SEND, "c", "turn: consecutive, last, block full") \
    X(turn_at_999, BOTH, OF_SEND, "sfc", "turn: handed over at timer 999")      \
    X(turn_flow_first, BOTH, OF_SEND, "isfwcp", "turn: flow control goes first") \
    X(changed_stmin_beside, ONLY_SCENES, OF_SEND, "isfwcp", "change: STmin changed beside it") \
    X(changed_bs_beside, ONLY_SCENES, OF_SEND, "isfwcp", "change: BS changed beside it") \
    X(change_refused_15_beside, ONLY_SCENES, OF_SEND, "isfwcp", "change: refused 15 beside it") \
    X(show_sending, ONLY_SCENES, OF_SEND, "sfwcp", "show: message being sent")  \
    X(show_no_sending, ONLY_SCENES, OF_SEND, "i", "show: no message being sent")

#define PARTY_SEND_OUTCOMES(X)                                                  \
    X(send_refused_18, ONLY_SCENES, OF_SEND, "isfwcp", "send: refused 18")      \
    X(send_refused_18_and_6, ONLY_SCENES, OF_SEND, "isfwcp", "send: refused 18, message empty") \
    X(send_refused_18_and_7, ONLY_SCENES, OF_SEND, "isfwcp", "send: refused 18, message above A") \
    X(scheduler_kept_off, ONLY_SCENES, OF_SEND, "sfwcp", "send: refused 8 for the scheduler, laptop's") \
    X(laptop_kept_off, ONLY_SCENES, OF_SEND, "sfwcp", "send: refused 8 for the laptop, scheduler's") \
    X(other_refused_6, ONLY_SCENES, OF_SEND, "sfwcp", "send: refused 6 for the other party") \
    X(other_refused_7, ONLY_SCENES, OF_SEND, "sfwcp", "send: refused 7 for the other party") \
    X(first_of_laptop, ONLY_SCENES, OF_SEND, "f", "turn: first handed over, laptop's") \
    X(more_of_laptop, ONLY_SCENES, OF_SEND, "c", "turn: consecutive, more to go, laptop's") \
    X(full_of_laptop, ONLY_SCENES, OF_SEND, "c", "turn: consecutive, block full, laptop's") \
    X(flow_first_of_laptop, ONLY_SCENES, OF_SEND, "sfwcp", "turn: flow control goes first, laptop's") \
    X(going_of_laptop, ONLY_SCENES, OF_SEND, "w", "flow control: going, laptop's") \
    X(waiting_of_laptop, ONLY_SCENES, OF_SEND, "w", "flow control: waiting, laptop's") \
    X(ignored_of_laptop, ONLY_SCENES, OF_SEND, "sfwcp", "frame: ignored, laptop's") \
    X(received_of_laptop, ONLY_SCENES, OF_SEND, "sfwcp", "frame: for the receive side, laptop's") \
    X(tick_of_laptop, ONLY_SCENES, OF_SEND, "sfwcp", "tick: no code, laptop's") \
    X(change_of_laptop, ONLY_SCENES, OF_SEND, "sfwcp", "change: changed, laptop's") \
    X(shown_of_laptop, ONLY_SCENES, OF_SEND, "sfwcp", "show: message being sent, laptop's") \
    X(sent_for_scheduler, BOTH, OF_SEND, "sc", "turn: code 1, scheduler's")     \
    X(sent_for_laptop, ONLY_SCENES, OF_SEND, "sc", "turn: code 1, laptop's")    \
    X(code_2_for_scheduler, BOTH, OF_SEND, "sfc", "tick: code 2, scheduler's")  \
    X(code_2_for_laptop, ONLY_SCENES, OF_SEND, "sfc", "tick: code 2, laptop's") \
    X(code_3_for_scheduler, BOTH, OF_SEND, "w", "tick: code 3, scheduler's")    \
    X(code_3_for_laptop, ONLY_SCENES, OF_SEND, "w", "tick: code 3, laptop's")   \
    X(failed_6_for_scheduler, BOTH, OF_SEND, "w", "flow control: failed 6, scheduler's") \
    X(failed_6_for_laptop, ONLY_SCENES, OF_SEND, "w", "flow control: failed 6, laptop's") \
    X(failed_9_for_scheduler, BOTH, OF_SEND, "w", "flow control: failed 9, scheduler's") \
    X(failed_9_for_laptop, ONLY_SCENES, OF_SEND, "w", "flow control: failed 9, laptop's") \
    X(party_2_alone, ONLY_SCENES, OF_SEND, "sfwcp", "refused 1: party 2 alone") \
    X(party_255_alone, ONLY_SCENES, OF_SEND, "sfwcp", "refused 1: party 255 alone")

#define TEN_BERTHS "0123456789"

#define BERTH_OUTCOMES(X)                                                       \
    X(changed_stmin_of, ONLY_SCENES, OF_BERTH, TEN_BERTHS, "change: STmin changed") \
    X(changed_bs_of, ONLY_SCENES, OF_BERTH, TEN_BERTHS, "change: BS changed")   \
    X(go_of_change, ONLY_SCENES, OF_BERTH, TEN_BERTHS, "turn: go carries a change") \
    X(go_of_own, ONLY_SCENES, OF_BERTH, TEN_BERTHS, "turn: go, next berth has others") \
    X(block_of_change, ONLY_SCENES, OF_BERTH, TEN_BERTHS, "consecutive: block full by a changed BS") \
    X(stmin_alone, ONLY_SCENES, OF_BERTH, TEN_BERTHS, "refused 1: its STmin alone") \
    X(taken_alone, ONLY_SCENES, OF_BERTH, TEN_BERTHS, "refused 1: taken, allowed by another's BS") \
    X(taken_by_own, ONLY_SCENES, OF_BERTH, TEN_BERTHS, "tick: taken, not allowed by another's BS")

#define PARTY_BERTH_OUTCOMES(X)                                                 \
    X(taken_for_scheduler, ONLY_SCENES, OF_BERTH, TEN_BERTHS, "send: sent for the scheduler") \
    X(taken_for_laptop, ONLY_SCENES, OF_BERTH, TEN_BERTHS, "send: sent for the laptop") \
    X(scheduler_after_laptop, ONLY_SCENES, OF_BERTH, TEN_BERTHS, "send: sent for the scheduler after the laptop") \
    X(laptop_after_scheduler, ONLY_SCENES, OF_BERTH, TEN_BERTHS, "send: sent for the laptop after the scheduler") \
    X(report_of_scheduler, ONLY_SCENES, OF_BERTH, TEN_BERTHS, "report: scheduler's") \
    X(report_of_laptop, ONLY_SCENES, OF_BERTH, TEN_BERTHS, "report: laptop's")  \
    X(report_beside_other, ONLY_SCENES, OF_BERTH, TEN_BERTHS, "report: next berth's message is the other's") \
    X(party_alone, ONLY_SCENES, OF_BERTH, TEN_BERTHS, "refused 1: its party alone")

#define AS_OUTCOME_OF_COUNT(name, sentence) X_COUNT(card_##name, BOTH, OF_CARD, "rtk", sentence)

#endif
