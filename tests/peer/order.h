/*
 * order.h - the ranges that a node keeps, each with a name.
 *
 * The paper knows only "out of order". The names serve the coverage table,
 * which wants to see every range broken once.
 */
#ifndef ORDER_H
#define ORDER_H

#include "node.h"

#define FAULTS(X)                                                       \
    X(area_small, "area below 8")                                       \
    X(area_large, "area above 4,095")                                   \
    X(stmin_reserved, "STmin outside 00 to 7F and F1 to F9")            \
    X(served_large, "served berth above 9")                             \
    X(last_large, "last length above A")                                \
    X(last_while_receiving, "last length not 0 during a reception")     \
    X(receive_timer_large, "receive timer above 999")                   \
    X(total_small, "total below 8")                                     \
    X(total_large, "total above A")                                     \
    X(got_small, "got below 6")                                         \
    X(got_large, "got not below total")                                 \
    X(receive_sn_large, "receive SN above 15")                          \
    X(taken_large, "frames taken not below BS")                         \
    X(taken_uncounted, "frames taken not 0 with BS 0")                  \
    X(send_timer_large, "send timer above 999")                         \
    X(single_small, "single due with length 0")                         \
    X(single_large, "single due with length above 7")                   \
    X(first_small, "first due with length below 8")                     \
    X(first_large, "first due with length above A")                     \
    X(length_small, "length of a sending below 8")                      \
    X(length_large, "length of a sending above A")                      \
    X(position_small, "position below 6")                               \
    X(position_large, "position not below length")                      \
    X(send_sn_large, "send SN above 15")                                \
    X(sent_large, "frames sent not below the peer's block size")        \
    X(sent_uncounted, "frames sent not 0 with the peer's block size 0") \
    X(sent_while_awaiting, "frames sent not 0 while awaiting")          \
    X(gap_large, "peer's gap above 128")                                \
    X(gap_left_large, "gap left above 128")                             \
    X(gap_left_while_awaiting, "gap left above 0 while awaiting")       \
    X(timer_in_gap, "timer above 0 while gap left is above 0")          \
    X(party_large, "party above 1")

#define AS_FAULT(name, sentence) name,
enum fault { no_fault, FAULTS(AS_FAULT) FAULT_COUNT };
#undef AS_FAULT

/* The first range that the node breaks. */
enum fault fault_of(const struct node *node);

#endif
