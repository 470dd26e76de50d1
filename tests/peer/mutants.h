/*
 * mutants.h - the mistakes that the tests must be able to see.
 *
 * Each mutant is one mistake that a line of the list of corners warns about,
 * named by that line, or that misreads a sentence of a request, named by the
 * request with a letter for the sentence. At most one is switched on, with
 * --mutant; the rules ask at the one place that it concerns.
 */
#ifndef MUTANTS_H
#define MUTANTS_H

#include <stdbool.h>

#include "order.h"

#define MUTANTS(X)                                                                    \
    X(02a, "show does not test the order")                                            \
    X(02b, "a frame's store is tested before the order")                              \
    X(03a, "with BS 0 the frames taken are counted up all the same")                  \
    X(03b, "with BS 1 a frame does not fill its block")                               \
    X(03c, "with a peer's block size 0 the frames sent are counted up all the same")  \
    X(03d, "with a peer's block size 1 a frame does not fill its block")              \
    X(04a, "owes go with a block count above 0 is held to be out of order")           \
    X(04b, "a got that whole frames do not add up to is held to be out of order")     \
    X(04c, "an SN that does not fit the bytes got is held to be out of order")        \
    X(04d, "a gap left above the peer's gap is held to be out of order")              \
    X(05a, "after a filled block the peer's block size is forgotten")                 \
    X(05b, "after a filled block the peer's gap is forgotten")                        \
    X(05c, "after a first frame the peer's block size is the berth's own")            \
    X(06a, "a refused set-up empties the node")                                       \
    X(06b, "set-up takes BS modulo 256")                                              \
    X(06c, "set-up keeps the berth served last")                                      \
    X(06d, "set-up keeps the last lengths")                                           \
    X(06e, "set-up refuses a node out of order")                                      \
    X(07a, "a frame without data is I1 before its identifier is tested")              \
    X(07b, "a frame of kind 4 to 15 is I2 before its data length is tested")          \
    X(07c, "a frame's data length is tested before its identifier")                   \
    X(08a, "a single frame may hold no byte")                                         \
    X(08b, "a single frame's length is its low three bits")                           \
    X(08c, "a single frame may have any data length above L")                         \
    X(09a, "a single frame stores its padding too")                                   \
    X(09b, "a single frame ends an owed overflow with old code 7")                    \
    X(09c, "a single frame leaves an overflow owed")                                  \
    X(10a, "a first frame may have any data length")                                  \
    X(10b, "an escape length of 4,095 is taken")                                      \
    X(10c, "only the low 16 bits of an escape length count")                          \
    X(10d, "any 12-bit length below 8 is an escape")                                  \
    X(11a, "an ignored single or first frame ends the old reception")                 \
    X(11b, "an ignored frame starts the receive timer again")                         \
    X(12a, "TooLong always has old code 0")                                           \
    X(12b, "TooLong clears the last length")                                          \
    X(12c, "TooLong stores its bytes")                                                \
    X(12d, "TooLong from an owed overflow has old code 7")                            \
    X(13a, "Begun keeps the last length")                                             \
    X(13b, "a length of exactly A is TooLong")                                        \
    X(14a, "a consecutive frame's SN is tested before its length")                    \
    X(14b, "a consecutive frame's length is tested before the state")                 \
    X(14c, "a consecutive frame is taken while go is owed")                           \
    X(15a, "a last consecutive frame may have any data length that holds its bytes")  \
    X(15b, "a last consecutive frame may not be filled up to 8 bytes")                \
    X(15c, "a last consecutive frame stores its padding too")                         \
    X(16a, "the reception goes on after a wrong SN")                                  \
    X(16b, "a frame with a wrong SN is stored")                                       \
    X(16c, "after a wrong SN the bytes got are shown as a message")                   \
    X(17a, "a block that is full is tested before the message that is complete")      \
    X(17b, "a new block starts with SN 1")                                            \
    X(17c, "a filled block keeps its block count")                                    \
    X(17d, "a filled block keeps its timer")                                          \
    X(18a, "flow control's length is tested before the state")                        \
    X(18b, "WAIT and overflow need one byte only")                                    \
    X(18c, "WAIT takes block size and STmin")                                         \
    X(18d, "WAIT keeps the timer")                                                    \
    X(18e, "go keeps the timer")                                                      \
    X(18f, "go starts the SN again")                                                  \
    X(19a, "go starts the receive timer again")                                       \
    X(19b, "a single frame ends the sending")                                         \
    X(20a, "a first frame keeps the old reception's timer")                           \
    X(20b, "overflow ends a sending in any state")                                    \
    X(20c, "a reserved STmin means no gap")                                           \
    X(20d, "STmin F1 to F9 means no gap")                                             \
    X(20e, "a wrong SN has old code 7")                                               \
    X(21a, "the tick that ends a gap counts for the timer")                           \
    X(21b, "a gap is one tick short")                                                 \
    X(22a, "owes go ends with code 4")                                                \
    X(22b, "an owed overflow that ends clears the last length")                       \
    X(23a, "a tick does not test the order")                                          \
    X(23b, "a refused tick moves the timers")                                         \
    X(24a, "a turn with nothing due does not look at its buffer")                     \
    X(24b, "a buffer of 7 bytes will do")                                             \
    X(24c, "a turn's buffer is tested before the store")                              \
    X(25a, "each round starts at berth 0")                                            \
    X(25b, "each round starts at the berth served last")                              \
    X(25c, "a turn with nothing due sets the berth served last to 9")                 \
    X(25d, "passed over is the berth's own number")                                   \
    X(25e, "flow control does not count as serving its berth")                        \
    X(26a, "within a berth flow control goes last")                                   \
    X(26b, "overflow carries BS and STmin")                                           \
    X(26c, "flow control reports code 1")                                             \
    X(27a, "the peer's block that is full is tested before the last frame")           \
    X(27b, "a frame that fills the peer's block leaves a gap")                        \
    X(27c, "a gap of 0 lasts one tick")                                               \
    X(28a, "flow control handed over starts the send timer again")                    \
    X(28b, "bytes past the payload are not written")                                  \
    X(28c, "bytes past 8 are written")                                                \
    X(29a, "send tests for a busy berth first")                                       \
    X(29b, "send clears the area behind the message")                                 \
    X(29c, "send is refused while the berth is receiving")                            \
    X(30a, "show tests the chosen store only")                                        \
    X(30b, "show does not show a message that is still due")                          \
    X(30c, "show shows a reception under way")                                        \
    X(30d, "show shows the part of a message that was sent")                          \
    X(31a, "a length of 4,096 has a number of frames")                                \
    X(31b, "a length of 0 needs one frame")                                           \
    X(31c, "only the low 16 bits of a length count")                                  \
    X(31d, "a length above A needs no frame")

/*
 * W1 by sentence: a whose card, b begun and delivered, c failed, d too long, e sent
 * and failed in sending, f frozen, g refusal 12, h refusals and cards, i the
 * exerciser's lines, j the records of scenes.
 *
 * W2 by sentence: a n + 1, b F1 to F9, c reserved values, d 0 stays 0, e the range;
 * then what it leaves as it was: f the berth's own STmin, g how a gap is kept and passes.
 *
 * W3 by sentence: a the settings in each berth's part, b a call changes either one, c set-up
 * fills all ten, d one of that berth's own calls: nothing else moves, e the ranges, f refusals
 * 1 and 5, g 13, h 14, i 15, j the records of scenes.
 *
 * W4 by sentence: a each nonzero report one record, b its bytes, c the codes, d berth, kind and length, e the
 * order, f what the reader accepts is what the writer makes, g the first bad record, h 16, i 17; then
 * the programs: j the exerciser's count of ticks, k the lines of the journal's reader, l the requests of its scenes.
 *
 * W5 by sentence: a the due berths, b as ten bits, c the next set bit after the one served
 * last, d every answer as it is, e in each call.
 *
 * W6 by sentence: a the same ten entries, b each send names its party, c the send side keeps the name
 * until the message ends, d the report names it, e the exerciser sends as 0, f nothing else goes by the
 * party, g 18, h the range, j the records of scenes.
 *
 * W10 by sentence: a the time, b the name, c the identifier, d hash and data, e the line; f a record of kind 1,
 * g one of kind 2 per whole millisecond, h the turns, i 20, j 21; k a written time, l the records, m the written
 * line, n the chosen name; then the programs: o what the converter tells, p the requests of candump's scenes.
 *
 * W11 by sentence: a no stored byte outside the area, b the refusal is out, c the
 * number unused, d no other answer changes.
 *
 * W13 by sentence: a both sides of all ten berths idle, b exactly one code, c which
 * one and when, d what stays, e the cards, f whatever the other berths do, g what
 * prolongs a side, and what does not.
 */
#define REQUEST_MUTANTS(X)                                                            \
    X(W1a1, "an event goes to the card of the next berth")                            \
    X(W1a2, "a tick counts for the first berth with a code only")                     \
    X(W1b1, "a single frame does not count as begun")                                 \
    X(W1b2, "a single frame does not count as delivered")                             \
    X(W1b3, "a first frame does not count as begun")                                  \
    X(W1b4, "a message of several frames does not count as delivered")                \
    X(W1b5, "a message of several frames counts as begun once more when it is there") \
    X(W1c1, "a reception that a single frame ends does not count as failed")          \
    X(W1c2, "a reception that a first frame ends does not count as failed")           \
    X(W1c3, "a reception that TooLong ends does not count as failed")                 \
    X(W1c4, "a message that ends a reception counts for the old one only")            \
    X(W1c5, "an owed overflow that a message ends counts as failed with 7")           \
    X(W1c6, "a wrong SN counts as failed with 7")                                     \
    X(W1c7, "code 2 after an overflow owed counts as failed")                         \
    X(W1c8, "code 2 after a go owed does not count as failed")                        \
    X(W1c9, "code 4 counts as failed with 2")                                         \
    X(W1d1, "TooLong over a reception counts as failed only")                         \
    X(W1d2, "TooLong counts as begun")                                                \
    X(W1d3, "too long is counted when its overflow is handed over")                   \
    X(W1e1, "flow control handed over counts as sent")                                \
    X(W1e2, "each frame of a message counts as sent")                                 \
    X(W1e3, "a message of several frames does not count as sent")                     \
    X(W1e4, "Failed 6 does not count as failed in sending")                           \
    X(W1e5, "Failed 9 does not count as failed in sending")                           \
    X(W1e6, "a tick's send code 2 does not count as failed in sending")               \
    X(W1e7, "a tick's send code 3 does not count as failed in sending")               \
    X(W1e8, "every Failed counts as a failed reception")                              \
    X(W1e9, "of both codes of a tick only the receive side's is counted")             \
    X(W1f1, "a count goes from 4,294,967,295 to 0")                                   \
    X(W1f2, "a frozen card keeps only the count at 4,294,967,295")                    \
    X(W1f3, "a card is frozen from 4,294,967,294 on")                                 \
    X(W1f4, "what freezes a card keeps the call's other counts from being added")     \
    X(W1f5, "one frozen card keeps them all")                                         \
    X(W1f6, "a frozen card does not say so")                                          \
    X(W1g1, "a frame does not test the list")                                         \
    X(W1g2, "a tick does not test the list")                                          \
    X(W1g3, "a turn does not test the list")                                          \
    X(W1g4, "a list of more than ten will do")                                        \
    X(W1g5, "a list that reaches a frame's berth will do")                            \
    X(W1g6, "a frame's list is tested before its store")                              \
    X(W1g7, "a frame's identifier is tested before its list")                         \
    X(W1g8, "a frame's data length is tested before its list")                        \
    X(W1g9, "a frame's list is tested before the order")                              \
    X(W1g10, "a tick's list is tested before the order")                              \
    X(W1g11, "a turn's list is tested before the order")                              \
    X(W1g12, "a turn's list is tested before its store")                              \
    X(W1g13, "a turn's buffer is tested before its list")                             \
    X(W1g14, "a frame without data needs no list")                                    \
    X(W1g15, "a tick without codes needs no list")                                    \
    X(W1g16, "a turn with nothing due needs no list")                                 \
    X(W1g17, "send needs a list of ten")                                              \
    X(W1g18, "show needs a list of ten")                                              \
    X(W1g19, "set-up needs a list of ten")                                            \
    X(W1g20, "a list of nine will do")                                                \
    X(W1h1, "a frame refused with 4 counts as too long")                              \
    X(W1h2, "a turn refused with 9 counts as failed in sending")                      \
    X(W1h3, "a refused tick counts its codes")                                        \
    X(W1i1, "the exerciser prints its cards without being asked")                     \
    X(W1i2, "the exerciser prints no cards for empty input")                          \
    X(W1i3, "the exerciser prints no cards behind a short last part")                 \
    X(W1j1, "a set-up empties the cards")                                             \
    X(W1j2, "a set-up lends ten cards again")                                         \
    X(W1j3, "a load of the node's own empties the cards")                             \
    X(W1j4, "a load of the node's own lends ten cards again")                         \
    X(W1j5, "a count is not loaded where its card is not lent")                       \
    X(W1j6, "a card that is not lent is shown empty")                                 \
    X(W1j7, "lending fewer cards empties the others")                                 \
    X(W1j8, "a count of a frozen card is not loaded")                                 \
    X(W1j9, "a count's value is read low byte first")                                 \
    X(W2a1, "a gap is as long as it was before W2")                                   \
    X(W2a2, "STmin 01 to 7F mean so many ticks and none more")                        \
    X(W2a3, "STmin 7F still means 127 ticks")                                         \
    X(W2a4, "STmin 01 still means 1 tick")                                            \
    X(W2a5, "a gap of n ticks becomes n + 2")                                         \
    X(W2a6, "the gap kept is n, and each hand-over adds the one more")                \
    X(W2a7, "the gap kept is n + 1, and each hand-over adds one more again")          \
    X(W2a8, "only a message's first gap has the one more")                            \
    X(W2b1, "STmin F1 to F9 still mean 1 tick")                                       \
    X(W2b2, "STmin F1 to F9 mean 2 ticks and one more")                               \
    X(W2b3, "STmin F0 means 2 ticks")                                                 \
    X(W2b4, "STmin FA means 2 ticks")                                                 \
    X(W2b5, "STmin F1 means 128 ticks")                                               \
    X(W2b6, "STmin F9 means 128 ticks")                                               \
    X(W2c1, "a reserved STmin still means 127 ticks")                                 \
    X(W2c2, "a reserved STmin means 128 ticks and one more")                          \
    X(W2c3, "a reserved STmin means so many ticks and one more, in a byte")           \
    X(W2c4, "STmin 80 to F0 still mean 127 ticks")                                    \
    X(W2c5, "STmin FA to FF still mean 127 ticks")                                    \
    X(W2d1, "STmin 00 means 1 tick")                                                  \
    X(W2d2, "after a first frame the peer's gap is 1")                                \
    X(W2e1, "a peer's gap of 128 is out of order while awaiting")                     \
    X(W2e2, "a peer's gap of 128 is out of order while consecutive")                  \
    X(W2e3, "a gap left of 128 is out of order")                                      \
    X(W2e4, "a peer's gap of 129 is in order while awaiting")                         \
    X(W2e5, "a peer's gap of 129 is in order while consecutive")                      \
    X(W2e6, "a gap left of 129 is in order")                                          \
    X(W2e7, "a peer's gap of 1 is out of order, as no STmin asks for it")             \
    X(W2f1, "go carries the berth's STmin and one more")                              \
    X(W2f2, "go carries the gap that the berth's STmin means")                        \
    X(W2f3, "a berth's own STmin may be 80")                                          \
    X(W2f4, "set-up keeps STmin and one more")                                        \
    X(W2g1, "a hand-over leaves 127 of a gap of 128")                                 \
    X(W2g2, "a filled block takes the one more off the gap")                          \
    X(W2g3, "a frame is due in the last tick of its gap")                             \
    X(W2g4, "a gap of 128 does not fit seven bits, and is 0")                         \
    X(W2g5, "after go the first frame waits the one tick more")                       \
    X(W2g6, "after go the first frame waits the whole gap")                           \
    X(W2g7, "the one more is a tick of the timer, before the first frame too")        \
    X(W3a1, "go carries the settings of berth 0")                                     \
    X(W3a2, "go carries the settings of the next berth")                              \
    X(W3a3, "go carries the BS of berth 0")                                           \
    X(W3a4, "go carries the STmin of berth 0")                                        \
    X(W3a5, "go carries the settings of the berth served last")                       \
    X(W3a6, "go carries STmin before BS")                                             \
    X(W3a7, "a block is full by the BS of berth 0")                                   \
    X(W3a8, "a block is full by the BS of the next berth")                            \
    X(W3a9, "with BS 0 at berth 0 no berth has blocks")                               \
    X(W3a10, "a sending's blocks go by the berth's own BS")                           \
    X(W3a11, "a sending's gap goes by the berth's own STmin")                         \
    X(W3b1, "parameter 0 is BS, and 1 is STmin")                                      \
    X(W3b2, "either parameter changes the other one, each in its own range")          \
    X(W3b3, "a change is made at all ten berths")                                     \
    X(W3b4, "a change is made at the next berth")                                     \
    X(W3b5, "a change is made at berth 0")                                            \
    X(W3b6, "a change of STmin sets BS to 0")                                         \
    X(W3b7, "a change of BS sets STmin to 0")                                         \
    X(W3b8, "a change of STmin is answered and not made")                             \
    X(W3b9, "a change of BS is answered and not made")                                \
    X(W3b10, "a change to 0 is answered and not made")                                \
    X(W3b11, "a change to the value that stands is refused with 14")                  \
    X(W3b12, "STmin F1 to F9 are kept as 01")                                         \
    X(W3b13, "a change of a berth that owes overflow is answered and not made")       \
    X(W3b14, "a change of a berth that sends is answered and not made")               \
    X(W3b15, "a change of either goes to both")                                       \
    X(W3c1, "set-up fills berth 0 only")                                              \
    X(W3c2, "set-up leaves out berth 9")                                              \
    X(W3c3, "set-up leaves the old settings of all berths but berth 0")               \
    X(W3c4, "set-up leaves the old BS of each berth")                                 \
    X(W3c5, "set-up leaves the old STmin of each berth")                              \
    X(W3c6, "a refused set-up fills the settings all the same")                       \
    X(W3d1, "a change starts the receive timer again")                                \
    X(W3d2, "a change starts the send timer again")                                   \
    X(W3d3, "a change clears the last length")                                        \
    X(W3d4, "a change takes an owed overflow off")                                    \
    X(W3d5, "a change ends the sending")                                              \
    X(W3d6, "a change counts as serving its berth")                                   \
    X(W3d7, "a change ends the gap left")                                             \
    X(W3d8, "a change of BS goes to the peer's block size of a sending")              \
    X(W3d9, "a change of STmin goes to the peer's gap of a sending")                  \
    X(W3d10, "a change needs a list of ten")                                          \
    X(W3d11, "a change needs an incoming store of ten areas")                         \
    X(W3d12, "a change needs an outgoing store of ten areas")                         \
    X(W3d13, "a change counts as a message sent")                                     \
    X(W3d14, "a change refused with 15 counts as a reception failed with 7")          \
    X(W3d15, "a change empties the berth's incoming area")                            \
    X(W3e1, "only the STmin of berth 0 has a range")                                  \
    X(W3e2, "the STmin of berth 9 has no range")                                      \
    X(W3e3, "the STmin of an idle berth has no range")                                \
    X(W3e4, "only the STmin of a berth that owes go or awaits has a range")           \
    X(W3e5, "the frames taken are below the BS of berth 0")                           \
    X(W3e6, "the frames taken are below the BS of the next berth")                    \
    X(W3e7, "show looks at the settings of its own berth only")                       \
    X(W3e8, "a frame looks at the settings of its own berth only")                    \
    X(W3e9, "send looks at the settings of its own berth only")                       \
    X(W3f1, "a change does not test the order")                                       \
    X(W3f2, "a change takes its berth modulo ten")                                    \
    X(W3f3, "a change tests its berth before the order")                              \
    X(W3f4, "a change of berth 9 is refused with 5")                                  \
    X(W3f5, "a change looks at the settings of its own berth only")                   \
    X(W3g1, "an unknown parameter is STmin")                                          \
    X(W3g2, "an unknown parameter is BS")                                             \
    X(W3g3, "only the lowest bit of a parameter counts")                              \
    X(W3g4, "an unknown parameter is answered, and nothing changes")                  \
    X(W3g5, "a change tests its parameter before its berth")                          \
    X(W3g6, "a change tests its parameter before the order")                          \
    X(W3g7, "an unknown parameter is refused with 14")                                \
    X(W3h1, "a value has no range, and its low byte is kept")                         \
    X(W3h2, "only the low byte of a value counts")                                    \
    X(W3h3, "only the low 16 bits of a value count")                                  \
    X(W3h4, "a value from 80000000 on is below 0, and its low byte is kept")          \
    X(W3h5, "STmin F1 to F9 are refused")                                             \
    X(W3h6, "STmin 80 to F0 are taken")                                               \
    X(W3h7, "STmin FA to FF are taken")                                               \
    X(W3h8, "STmin 80 is taken")                                                      \
    X(W3h9, "STmin 7F is refused")                                                    \
    X(W3h10, "STmin F0 is taken")                                                     \
    X(W3h11, "STmin F1 is refused")                                                   \
    X(W3h12, "STmin F9 is refused")                                                   \
    X(W3h13, "STmin FA is taken")                                                     \
    X(W3h14, "BS 256 is taken")                                                       \
    X(W3h15, "BS 255 is refused")                                                     \
    X(W3h16, "BS 0 is refused")                                                       \
    X(W3h17, "BS has the range of STmin")                                             \
    X(W3h18, "STmin has the range of BS")                                             \
    X(W3h19, "a change tests its value before its parameter")                         \
    X(W3h20, "a change tests its value before its berth")                             \
    X(W3h21, "a value above its range is the highest of it")                          \
    X(W3i1, "a change is never refused with 15")                                      \
    X(W3i2, "15 while the berth owes go, and not while it awaits")                    \
    X(W3i3, "15 while the berth awaits, and not while it owes go")                    \
    X(W3i4, "15 while the berth owes overflow too")                                   \
    X(W3i5, "15 while the berth sends too")                                           \
    X(W3i6, "15 while the berth awaits flow control too")                             \
    X(W3i7, "15 while the berth has a message that arrived too")                      \
    X(W3i8, "15 while any berth owes go or awaits")                                   \
    X(W3i9, "15 goes by the receive side of berth 0")                                 \
    X(W3i10, "a change tests for 15 before its value")                                \
    X(W3i11, "a change tests for 15 before its parameter")                            \
    X(W3i12, "a change refused with 15 is made all the same")                         \
    X(W3i13, "a change refused with 15 ends the reception")                           \
    X(W3i14, "a change refused with 15 starts the receive timer again")               \
    X(W3i15, "STmin may be changed while the berth owes go or awaits")                \
    X(W3i16, "BS may be changed while the berth owes go or awaits")                   \
    X(W3i17, "no 15 for a change to the value that stands")                           \
    X(W3i18, "no 15 where no frame of the block was taken")                           \
    X(W3j1, "a load of the node's own has settings for berth 0 only")                 \
    X(W3j2, "a load of the node's own leaves the berths' settings")                   \
    X(W3j3, "a load of one berth's settings goes to all ten")                         \
    X(W3j4, "a load of one berth's settings has STmin before BS")                     \
    X(W3j5, "a change's value is read low byte first")                                \
    X(W3j6, "a state has the settings of berth 0")                                    \
    X(W3j7, "a state has STmin before BS")                                            \
    X(W3j8, "settings out of range are not loaded")                                   \
    X(W4a1, "a single frame that is delivered gives no record")                       \
    X(W4a2, "a message of several frames that is delivered gives no record")          \
    X(W4a3, "Failed 5 gives no record")                                               \
    X(W4a4, "Failed 6 gives no record")                                               \
    X(W4a5, "Failed 9 gives no record")                                               \
    X(W4a6, "an old reception gives no record")                                       \
    X(W4a7, "an old reception that TooLong ends gives no record")                     \
    X(W4a8, "TooLong gives a record itself, of receive code 7")                       \
    X(W4a9, "Begun gives a record, as if it were delivered")                          \
    X(W4a10, "an ignored frame gives a record, of receive code 5")                    \
    X(W4a11, "a refused frame gives a record, of receive code 5")                     \
    X(W4a12, "a refused send gives a record, of send code 9")                         \
    X(W4a13, "a send that is answered gives a record, of send code 1")                \
    X(W4a14, "each frame handed over gives a record, of send code 1")                 \
    X(W4a15, "the last frame of several gives no record")                             \
    X(W4a16, "a single frame handed over gives no record")                            \
    X(W4a17, "an owed overflow that times out gives no record")                       \
    X(W4a18, "a tick gives the records of its first berth only")                      \
    X(W4a19, "of both codes of a berth only the receive side's gives a record")       \
    X(W4a20, "of both reports of a frame only the first gives a record")              \
    X(W4a21, "a tick gives no record of berth 9")                                     \
    X(W4a22, "Going gives a record, of send code 1")                                  \
    X(W4a23, "the code 0 beside a receive code gives a record too")                   \
    X(W4a24, "a header of 16 zeros stands before the records")                        \
    X(W4a25, "a line end stands behind each record")                                  \
    X(W4a26, "a bad record gives a record, of receive code 5")                        \
    X(W4a27, "a last part under 16 bytes gives a record of zeros")                    \
    X(W4a28, "of equal records one behind the other only the first is written")       \
    X(W4b1, "the tick count has its low byte first")                                  \
    X(W4b2, "the length has its low byte first")                                      \
    X(W4b3, "the two zeros stand before the length")                                  \
    X(W4b4, "the berth stands before the kind")                                       \
    X(W4b5, "the code stands before the berth")                                       \
    X(W4b6, "1 is send and 2 is receive")                                             \
    X(W4b7, "the zero stands before the code")                                        \
    X(W4b8, "four bytes of the tick count are written")                               \
    X(W4b9, "one byte of the length is written")                                      \
    X(W4b10, "byte 3 is left as it was")                                              \
    X(W4b11, "bytes 6 and 7 are left as they were")                                   \
    X(W4b12, "bytes 6 and 7 hold the length once more")                               \
    X(W4b13, "four bytes of the tick count are read")                                 \
    X(W4b14, "a tick count from 2^63 on is below 0, and refused")                     \
    X(W4b15, "one byte of the length is read")                                        \
    X(W4c1, "the two lists of codes are exchanged")                                   \
    X(W4c2, "a code of either list is taken for both sides")                          \
    X(W4c3, "the writer takes any code")                                              \
    X(W4c4, "the reader takes any code")                                              \
    X(W4d1, "berth 10 is taken")                                                      \
    X(W4d2, "berth 9 is refused")                                                     \
    X(W4d3, "berth 0 is refused")                                                     \
    X(W4d4, "only the low byte of a berth counts")                                    \
    X(W4d5, "kind 0 is taken")                                                        \
    X(W4d6, "kind 3 is taken")                                                        \
    X(W4d7, "a delivered length of 0 is taken")                                       \
    X(W4d8, "a delivered length of 1 is refused")                                     \
    X(W4d9, "a delivered length of 4,095 is refused")                                 \
    X(W4d10, "a delivered length of 4,096 is taken")                                  \
    X(W4d11, "only the low two bytes of a length count")                              \
    X(W4d12, "a length beside any receive code is taken")                             \
    X(W4d13, "a length beside send code 1 is taken")                                  \
    X(W4d14, "a length beside the other send codes is taken")                         \
    X(W4d15, "send code 1 needs a length too")                                        \
    X(W4d16, "the writer leaves out a length that should be 0")                       \
    X(W4d17, "the record of a message sent has its length")                           \
    X(W4d18, "the record of the old reception has the new message's length")          \
    X(W4d19, "a delivered record has length 0")                                       \
    X(W4d20, "the record of a message sent has the berth served before it")           \
    X(W4d21, "the record of a message sent has the number of berths passed over")     \
    X(W4d22, "a tick's records count the berths from 1")                              \
    X(W4d23, "Failed 6 and 9 are the receive side's")                                 \
    X(W4d24, "Failed 5 is the send side's")                                           \
    X(W4e1, "a frame's old reception comes last")                                     \
    X(W4e2, "a tick's records go from berth 9 down")                                  \
    X(W4e3, "a tick's records go send before receive")                                \
    X(W4e4, "all receive records of a tick go before all send records")               \
    X(W4f1, "the reader does not look at byte 3")                                     \
    X(W4f2, "the reader does not look at byte 6")                                     \
    X(W4f3, "the reader does not look at byte 7")                                     \
    X(W4f4, "the reader looks at the low two bits of a kind")                         \
    X(W4f5, "the reader looks at the low four bits of a berth")                       \
    X(W4f6, "the reader takes any berth")                                             \
    X(W4f7, "the reader looks at the length of a delivered one only")                 \
    X(W4f8, "the reader takes any delivered length")                                  \
    X(W4f9, "the reader refuses a tick count of 0")                                   \
    X(W4f10, "a tick count below that of the record before makes a record bad")       \
    X(W4f11, "the reader refuses the highest tick count")                             \
    X(W4f12, "the reader refuses more than 16 bytes")                                 \
    X(W4f13, "the reader takes the last 16 bytes")                                    \
    X(W4g1, "the number of the first bad record counts from 0")                       \
    X(W4g2, "a last part under 16 bytes is left out")                                 \
    X(W4g3, "a last part under 16 bytes counts as a good one")                        \
    X(W4g4, "the last bad record's number is told")                                   \
    X(W4g5, "the number of bad records is told")                                      \
    X(W4g6, "only the first record is looked at")                                     \
    X(W4g7, "the reader goes on behind a bad record")                                 \
    X(W4g8, "15 bytes will do for a record")                                          \
    X(W4g9, "an empty file has a bad record")                                         \
    X(W4g10, "a last part under 16 bytes has the number of the record before it")     \
    X(W4h1, "a room of 15 bytes will do")                                             \
    X(W4h2, "a room of 16 bytes is refused")                                          \
    X(W4h3, "a room of 17 bytes is refused")                                          \
    X(W4h4, "17 is tested before 16")                                                 \
    X(W4h5, "bytes past 16 are cleared")                                              \
    X(W4h6, "what has room is written though it is refused with 16")                  \
    X(W4i1, "a write refused with 17 clears the 16 bytes")                            \
    X(W4i2, "a write refused with 17 is made all the same")                           \
    X(W4i3, "no room is refused with 17")                                             \
    X(W4i4, "a read of under 16 bytes is refused with 16")                            \
    X(W4i5, "an entry outside the rules is refused with 16")                          \
    X(W4j1, "a tick's records carry the count before it")                             \
    X(W4j2, "the count of ticks starts with 1")                                       \
    X(W4j3, "a bad record of kind 2 counts as a tick")                                \
    X(W4j4, "every record counts as a tick")                                          \
    X(W4j5, "only a tick with a code counts")                                         \
    X(W4j6, "a turn counts as a tick")                                                \
    X(W4j7, "a frame's records carry the count of the next tick")                     \
    X(W4k1, "the reader's lines count from 0")                                        \
    X(W4k2, "the reader prints the tick count in hex")                                \
    X(W4k3, "the reader prints a tick count from 2^63 on as one below 0")             \
    X(W4k4, "the reader prints the length of every receive record")                   \
    X(W4k5, "the reader prints the length of every N_OK")                             \
    X(W4k6, "the names of codes 3 and 4 are exchanged")                               \
    X(W4k7, "the names of codes 6 and 9 are exchanged")                               \
    X(W4k8, "the names of codes 5 and 7 are exchanged")                               \
    X(W4k9, "the names of codes 1 and 2 are exchanged")                               \
    X(W4k10, "the words receive and send are exchanged")                              \
    X(W4k11, "the line of a bad record has its number first")                         \
    X(W4l1, "a request with 48 bytes is bad")                                         \
    X(W4l2, "byte 20 of a request to write is not looked at")                         \
    X(W4l3, "byte 2 of a request to read or check is not looked at")                  \
    X(W4l4, "what stands behind the bytes to read or check is not looked at")         \
    X(W5a1, "an owed overflow sets no bit")                                           \
    X(W5a2, "an owed go sets no bit")                                                 \
    X(W5a3, "a single due sets no bit")                                               \
    X(W5a4, "a first due sets no bit")                                                \
    X(W5a5, "a consecutive frame sets no bit")                                        \
    X(W5a6, "a reception that awaits sets a bit")                                     \
    X(W5a7, "a sending that awaits flow control sets a bit")                          \
    X(W5a8, "a consecutive frame sets a bit in its gap too")                          \
    X(W5a9, "the peer's gap is looked at for a bit, not what is left of it")          \
    X(W5a10, "only receive sides set bits")                                           \
    X(W5a11, "only send sides set bits")                                              \
    X(W5a12, "a send side sets no bit beside a busy receive side")                    \
    X(W5a13, "a receive side sets no bit beside a busy send side")                    \
    X(W5a14, "both sides due take the berth's bit off again")                         \
    X(W5a15, "both sides due set the bit of the next berth")                          \
    X(W5b1, "the bit of berth 0 is lost")                                             \
    X(W5b2, "the bit of berth 9 is lost")                                             \
    X(W5b3, "the bits are kept in a byte, without those of berths 8 and 9")           \
    X(W5b4, "each bit stands one place too high")                                     \
    X(W5b5, "each bit stands one place too low")                                      \
    X(W5b6, "the first idle berth ends the gathering")                                \
    X(W5b7, "the first berth that is not idle has the bit of berth 0")                \
    X(W5b8, "the number of the first berth that is not idle is added twice")          \
    X(W5b9, "the bits stand in the other order, and are read as if they did not")     \
    X(W5c1, "the round starts two berths after the one served last")                  \
    X(W5c2, "the round ends with berth 9")                                            \
    X(W5c3, "the berth served last is not looked at again")                           \
    X(W5c4, "a round that comes past berth 9 goes on with berth 1")                   \
    X(W5c5, "a round that comes past berth 9 takes the highest bit from there on")    \
    X(W5c6, "the round goes down from the berth before the one served last")          \
    X(W5c7, "the last set bit of the round is taken")                                 \
    X(W5c8, "of two set bits or more the second is taken")                            \
    X(W5c9, "after berth 9 no bit is found")                                          \
    X(W5c10, "the highest set bit is taken, whichever berth was served last")         \
    X(W5c11, "of the bits above the berth served last the highest is taken")          \
    X(W5d1, "with nothing due the berth served last is served, 9 passed over")        \
    X(W5d2, "with nothing due the berth after it is served, 0 passed over")           \
    X(W5d3, "with nothing due the buffer is filled")                                  \
    X(W5d4, "with nothing due the berth after the one served last counts as served")  \
    X(W5d5, "idle berths do not count as passed over")                                \
    X(W5d6, "a round that comes past berth 9 counts one more as passed over")         \
    X(W5d7, "the berths passed over are kept in three bits")                          \
    X(W5d8, "the idle berths at the front do not count as passed over")               \
    X(W5d9, "the berth served last is kept as its place in the round")                \
    X(W5e1, "the bits are gathered anew only when none of the last call's is left")   \
    X(W6a1, "a berth that sends for one party is free for the other")                 \
    X(W6a2, "the scheduler may send over a message of the laptop")                    \
    X(W6a3, "the laptop may send over a message of the scheduler")                    \
    X(W6a4, "8 for the laptop while the scheduler sends to any berth")                \
    X(W6a5, "8 for the scheduler while the laptop sends to any berth")                \
    X(W6a6, "8 for the laptop while the berth receives")                              \
    X(W6a7, "the laptop sends to the next berth")                                     \
    X(W6a8, "berth and party change places")                                          \
    X(W6a9, "7 for a message of the laptop above 7 bytes")                            \
    X(W6a10, "a message of the laptop is answered and not copied")                    \
    X(W6a11, "5 for the laptop at berth 9")                                           \
    X(W6b1, "every message is the scheduler's")                                       \
    X(W6b2, "every message is the laptop's")                                          \
    X(W6b3, "0 is the laptop, and 1 the scheduler")                                   \
    X(W6b4, "a message of one frame is the scheduler's")                              \
    X(W6b5, "a message of several frames is the scheduler's")                         \
    X(W6b6, "the name goes to the message of the next berth")                         \
    X(W6b7, "the name goes to all messages under way")                                \
    X(W6b8, "a berth that the laptop has sent to stays the laptop's")                 \
    X(W6b9, "a message has the party of the send before")                             \
    X(W6c1, "a first frame handed over loses the name")                               \
    X(W6c2, "go loses the name")                                                      \
    X(W6c3, "WAIT loses the name")                                                    \
    X(W6c4, "a consecutive frame handed over loses the name")                         \
    X(W6c5, "a frame that fills the peer's block loses the name")                     \
    X(W6c6, "a tick of a gap loses the name")                                         \
    X(W6c7, "a tick of the timer loses the name")                                     \
    X(W6c8, "an ignored frame loses the name")                                        \
    X(W6c9, "a frame for the receive side loses the name")                            \
    X(W6c10, "flow control handed over loses the name")                               \
    X(W6c11, "a change of the berth's settings loses the name")                       \
    X(W6c12, "a message that is shown loses the name")                                \
    X(W6c13, "a send refused with 8 gives its party to the message under way")        \
    X(W6c14, "a send refused with 6 or 7 gives its party to the message under way")   \
    X(W6c15, "a send refused with 18 loses the name of the message under way")        \
    X(W6c16, "a frame that another berth hands over loses the name")                  \
    X(W6c17, "after a first frame the party is the SN")                               \
    X(W6c18, "after go the party is the other one")                                   \
    X(W6c19, "after a consecutive frame the party is the other one")                  \
    X(W6c20, "a refused frame, tick or turn loses the name")                          \
    X(W6c21, "a refused set-up loses the name")                                       \
    X(W6c22, "a report of another berth loses the name")                              \
    X(W6d1, "code 1 of a single frame names the scheduler")                           \
    X(W6d2, "code 1 of a last consecutive frame names the scheduler")                 \
    X(W6d3, "a send side's code 2 names the scheduler")                               \
    X(W6d4, "code 3 names the scheduler")                                             \
    X(W6d5, "Failed 6 names the scheduler")                                           \
    X(W6d6, "Failed 9 names the scheduler")                                           \
    X(W6d7, "code 1 names the laptop")                                                \
    X(W6d8, "a tick's send code names the laptop")                                    \
    X(W6d9, "Failed 6 and 9 name the laptop")                                         \
    X(W6d10, "a report names the other party")                                        \
    X(W6d11, "a report names the party of the next berth")                            \
    X(W6d12, "a report names the party of berth 0")                                   \
    X(W6d13, "a report names the party of the last send to any berth")                \
    X(W6d14, "a report names the party of the last send, refused or not")             \
    X(W6d15, "all reports of a tick name the party of the first")                     \
    X(W6d16, "all reports of a tick name the party of the last")                      \
    X(W6d17, "code 1 names the party of the berth served before")                     \
    X(W6d18, "of the reports of a tick only the first is named")                      \
    X(W6d19, "the scheduler is not named")                                            \
    X(W6d20, "a message's frame with code 0 names the party")                         \
    X(W6d21, "flow control handed over names the party of the message beside it")     \
    X(W6d22, "Failed 5 names the party of the message beside it")                     \
    X(W6d23, "Going names the party")                                                 \
    X(W6d24, "Waiting names the party")                                               \
    X(W6d25, "a receive side's code names the party of the message beside it")        \
    X(W6d26, "a tick names its parties from berth 9 down")                            \
    X(W6d27, "a tick with a report names the parties of all messages under way")      \
    X(W6d28, "a tick without a report has the word party too")                        \
    X(W6d29, "the party of a turn stands behind its buffer")                          \
    X(W6d30, "no report names its party")                                             \
    X(W6d31, "a send names its party in its answer")                                  \
    X(W6e1, "the exerciser names parties")                                            \
    X(W6e2, "the exerciser takes byte 9 of a send for its party")                     \
    X(W6f1, "the scheduler's messages go before the laptop's")                        \
    X(W6f2, "a message of the laptop does not count as sent")                         \
    X(W6f3, "a message of the laptop does not count as failed in sending")            \
    X(W6f4, "a message of the laptop has no timeout")                                 \
    X(W6f5, "a message of the laptop is not shown")                                   \
    X(W6f6, "15 while the laptop sends to the berth too")                             \
    X(W6f7, "the laptop's frames keep no gap")                                        \
    X(W6f8, "the laptop's frames go without blocks")                                  \
    X(W6f9, "WAIT does not start the timer of the laptop's message again")            \
    X(W6f10, "the laptop's last frame has code 0")                                    \
    X(W6f11, "a message's code is its party")                                         \
    X(W6f12, "the laptop's frames do not count as serving their berth")               \
    X(W6g1, "send tests its party before the order")                                  \
    X(W6g2, "send tests its party before its store")                                  \
    X(W6g3, "send tests its party before its berth")                                  \
    X(W6g4, "send tests its party behind 6")                                          \
    X(W6g5, "send tests its party behind 7")                                          \
    X(W6g6, "send tests its party behind 8")                                          \
    X(W6g7, "party 2 will do")                                                        \
    X(W6g8, "party 1 is refused")                                                     \
    X(W6g9, "any party will do")                                                      \
    X(W6g10, "only the lowest bit of a party counts")                                 \
    X(W6g11, "a party from 128 on is below 0, and the scheduler")                     \
    X(W6g12, "a party above 1 is the laptop")                                         \
    X(W6g13, "a party above 1 is the scheduler")                                      \
    X(W6g14, "a party above 1 is refused with 5")                                     \
    X(W6g15, "a send refused with 18 is made all the same, for the scheduler")        \
    X(W6g16, "a send refused with 18 leaves its bytes in the area")                   \
    X(W6g17, "the party is not tested while the berth sends")                         \
    X(W6h1, "the party of a single due has no range")                                 \
    X(W6h2, "the party of a first due has no range")                                  \
    X(W6h3, "the party has no range while awaiting flow control")                     \
    X(W6h4, "the party has no range while consecutive")                               \
    X(W6h5, "a party of 2 is in order")                                               \
    X(W6h6, "a party of 1 is out of order")                                           \
    X(W6h7, "a party from 128 on is below 0, and in order")                           \
    X(W6h8, "only the party of berth 0 has a range")                                  \
    X(W6h9, "the party of berth 9 has no range")                                      \
    X(W6h10, "a frame looks at the party of its own berth only")                      \
    X(W6h11, "send looks at the party of its own berth only")                         \
    X(W6h12, "show looks at the party of its own berth only")                         \
    X(W6h13, "a change looks at the party of its own berth only")                     \
    X(W6h14, "a tick does not test the parties")                                      \
    X(W6h15, "a turn does not test the parties")                                      \
    X(W6h16, "a frame does not test the parties")                                     \
    X(W6h17, "send does not test the parties")                                        \
    X(W6h18, "show does not test the parties")                                        \
    X(W6h19, "a change does not test the parties")                                    \
    X(W6h20, "the party has no range in a gap")                                       \
    X(W6j1, "a send with a party above 1 is bad")                                     \
    X(W6j2, "a load of a party above 1 is bad")                                       \
    X(W6j3, "a load of a send side has no party")                                     \
    X(W6j4, "a party above 1 is loaded as 1")                                         \
    X(W6j5, "an idle side keeps the party that it is loaded with")                    \
    X(W6j6, "a load of an idle side with a party is bad")                             \
    X(W6j7, "a state has the party before the timer")                                 \
    X(W6j8, "an idle send side shows a party")                                        \
    X(W6j9, "a single due and a first due show no party")                             \
    X(W6j10, "a state has the party of berth 0")                                      \
    X(W6j11, "a state has no party")                                                  \
    X(W6j12, "byte 15 of a load of a send side is not looked at")                     \
    X(W6j13, "byte 10 of a send is not looked at")                                    \
    X(W6j14, "a load of the node's own loses the names")                              \
    X(W6j15, "a load of the receive side loses the name")                             \
    X(W10a1, "seconds of 11 digits are read")                                         \
    X(W10a2, "seconds of 10 digits are refused")                                      \
    X(W10a3, "the seconds may be missing")                                            \
    X(W10a4, "the seconds have ten digits")                                           \
    X(W10a5, "leading zeros of the seconds are refused")                              \
    X(W10a6, "leading zeros do not count among the ten digits")                       \
    X(W10a7, "fewer than six decimals will do")                                       \
    X(W10a8, "more than six decimals will do")                                        \
    X(W10a9, "the seconds are kept in 32 bits")                                       \
    X(W10a10, "the microseconds are kept in 32 bits")                                 \
    X(W10a11, "the byte before 0 is a digit of a time")                               \
    X(W10a12, "the byte behind 9 is a digit of a time")                               \
    X(W10a13, "a comma will do for the point")                                        \
    X(W10a14, "the last three decimals are not looked at")                            \
    X(W10a15, "a space before the seconds will do")                                   \
    X(W10a16, "a plus before the seconds will do")                                    \
    X(W10b1, "a name may be empty")                                                   \
    X(W10b2, "a name of 16 letters will do")                                          \
    X(W10b3, "a name of 15 letters is refused")                                       \
    X(W10b4, "a name may have an underscore")                                         \
    X(W10b5, "a name may have a hyphen")                                              \
    X(W10b6, "a name may have no digits")                                             \
    X(W10b7, "a name may have no letters A to Z")                                     \
    X(W10b8, "a name may have no letters a to z")                                     \
    X(W10b9, "a name begins with a letter")                                           \
    X(W10b10, "every line has the name of the first")                                 \
    X(W10b11, "the byte before A is a letter")                                        \
    X(W10b12, "the byte behind Z is a letter")                                        \
    X(W10b13, "the byte before a is a letter")                                        \
    X(W10b14, "the byte behind z is a letter")                                        \
    X(W10b15, "the byte before 0 is a digit of a name")                               \
    X(W10b16, "the byte behind 9 is a digit of a name")                               \
    X(W10b17, "a letter with an accent is a letter")                                  \
    X(W10c1, "identifier 800 will do")                                                \
    X(W10c2, "identifier 7FF is refused")                                             \
    X(W10c3, "an identifier in lower case is read")                                   \
    X(W10c4, "an identifier of two digits is read")                                   \
    X(W10c5, "an identifier of four digits is read")                                  \
    X(W10c6, "an identifier of eight digits is read")                                 \
    X(W10c7, "identifier 000 is refused")                                             \
    X(W10c8, "an identifier that is read is cut to 11 bits")                          \
    X(W10c9, "only the berths' identifiers are read")                                 \
    X(W10c10, "the byte before A is a hex digit")                                     \
    X(W10c11, "G is a hex digit")                                                     \
    X(W10c12, "the byte before 0 is a hex digit")                                     \
    X(W10c13, "the byte behind 9 is a hex digit")                                     \
    X(W10d1, "data bytes behind the eighth are left out")                             \
    X(W10d2, "8 data bytes are refused")                                              \
    X(W10d3, "a line without data is refused")                                        \
    X(W10d4, "half a data byte at the end is left out")                               \
    X(W10d5, "data in lower case is read")                                            \
    X(W10d6, "the two digits of a data byte are exchanged")                           \
    X(W10d7, "two hashes will do")                                                    \
    X(W10d8, "a remote frame is read as one without data")                            \
    X(W10d9, "points between the data bytes will do")                                 \
    X(W10e1, "two spaces will do for one")                                            \
    X(W10e2, "a tab will do for a space")                                             \
    X(W10e3, "CR and LF end a line")                                                  \
    X(W10e4, "a last line without LF is read")                                        \
    X(W10e5, "an empty line is passed over")                                          \
    X(W10e6, "a space before LF will do")                                             \
    X(W10e7, "a direction behind the data will do")                                   \
    X(W10e8, "a space before the line will do")                                       \
    X(W10e9, "a byte 0 ends a line")                                                  \
    X(W10e10, "what stands behind LF is not looked at")                               \
    X(W10e11, "a last line without LF is left out")                                   \
    X(W10e12, "an empty log is refused")                                              \
    X(W10f1, "a record's identifier has its low byte first")                          \
    X(W10f2, "the data length stands in byte 5")                                      \
    X(W10f3, "the data stands from byte 5 on")                                        \
    X(W10f4, "the data is filled up with CC")                                         \
    X(W10f5, "the data length counts the digits")                                     \
    X(W10f6, "a line without data has no record")                                     \
    X(W10g1, "the difference of two times is rounded")                                \
    X(W10g2, "the times are rounded, not those since the first line")                 \
    X(W10g3, "the times since the first line are rounded to the nearest millisecond") \
    X(W10g4, "the times since the first line are rounded up")                         \
    X(W10g5, "there are ticks before the first line")                                 \
    X(W10g6, "the ticks stand behind the frame")                                      \
    X(W10g7, "between two lines there is at least one tick")                          \
    X(W10g8, "the milliseconds since the first line are kept in 32 bits")             \
    X(W10g9, "the microseconds since the first line are kept in 32 bits")             \
    X(W10g10, "a time before the first line's wraps")                                 \
    X(W10g11, "behind a tick the time counts from that line on")                      \
    X(W10h1, "ticks have no turn behind them")                                        \
    X(W10h2, "frames have no turn behind them")                                       \
    X(W10h3, "the turns stand before the records")                                    \
    X(W10h4, "there are turns without the word")                                      \
    X(W10h5, "there is one more turn at the end")                                     \
    X(W10h6, "there are no turns with the word")                                      \
    X(W10i1, "a time equal to the line before is refused")                            \
    X(W10i2, "a time earlier by a part of a millisecond will do")                     \
    X(W10i3, "a time is held to the first line, not to the line before")              \
    X(W10i4, "an earlier time is not refused")                                        \
    X(W10i5, "an earlier time is refused with 19")                                    \
    X(W10i6, "an earlier time is refused with 21")                                    \
    X(W10i7, "only the seconds of two times are compared")                            \
    X(W10i8, "20 is tested before the form of what follows the time")                 \
    X(W10i9, "20 is tested before the identifier's range")                            \
    X(W10j1, "60,000 ticks between two lines are refused")                            \
    X(W10j2, "60,001 ticks between two lines will do")                                \
    X(W10j3, "60 seconds between two lines are the most, whatever the ticks")         \
    X(W10j4, "of two lines the rounded difference is held to 60,000")                 \
    X(W10j5, "of more than 60,000 ticks the first 60,000 are made")                   \
    X(W10j6, "over 60,000 ticks are refused with 20")                                 \
    X(W10j7, "60,000 ticks stand before the refusal 21")                              \
    X(W10j8, "over 60,000 ticks before the first line are refused")                   \
    X(W10j9, "over 60,000 ticks in all are refused")                                  \
    X(W10j10, "65,535 ticks between two lines will do")                               \
    X(W10j11, "21 is tested before the identifier's range")                           \
    X(W10k1, "ticks before the first frame do not count")                             \
    X(W10k2, "a tick adds a microsecond")                                             \
    X(W10k3, "the seconds are written with ten digits")                               \
    X(W10k4, "the decimals are written without leading zeros")                        \
    X(W10k5, "three decimals are written")                                            \
    X(W10k6, "a turn adds a millisecond")                                             \
    X(W10k7, "a send adds a millisecond")                                             \
    X(W10k8, "a frame adds a millisecond")                                            \
    X(W10k9, "the written time is kept in 32 bits")                                   \
    X(W10k10, "behind 2^64 - 1 the time wraps")                                       \
    X(W10k11, "a tick at 2^64 - 1 is refused")                                        \
    X(W10k12, "a tick that brings 11 digits is refused")                              \
    X(W10k13, "a written time of 10 digits is refused")                               \
    X(W10k14, "a time of 11 digits is written")                                       \
    X(W10k15, "the first time of 11 digits is written")                               \
    X(W10k16, "of a time of 11 digits the last ten are written")                      \
    X(W10k17, "kinds 3 and 4 are refused at a time of 11 digits")                     \
    X(W10l1, "kinds 3 and 4 are refused")                                             \
    X(W10l2, "of kinds 3 and 4 nothing else is looked at")                            \
    X(W10l3, "a send of 1,002 bytes is skipped")                                      \
    X(W10l4, "a send of 1,001 bytes is refused")                                      \
    X(W10l5, "another kind is skipped")                                               \
    X(W10l6, "a frame of more than 8 bytes is cut")                                   \
    X(W10l7, "byte 1 of a frame is not looked at")                                    \
    X(W10l8, "bytes 5 to 7 of a frame are not looked at")                             \
    X(W10l9, "the bytes behind a frame's data are not looked at")                     \
    X(W10l10, "of a tick nothing else is looked at")                                  \
    X(W10l11, "a last part under 16 bytes is left out")                               \
    X(W10l12, "an identifier above 7FF is written")                                   \
    X(W10l13, "an identifier that is written is cut to 11 bits")                      \
    X(W10l14, "only the berths' identifiers are written")                             \
    X(W10l15, "a send to berth 10 is refused")                                        \
    X(W10l16, "a send of no bytes is refused")                                        \
    X(W10l17, "a send may have a party")                                              \
    X(W10l18, "a turn may have a buffer")                                             \
    X(W10l19, "of a longer record the first 16 bytes are taken")                      \
    X(W10l20, "a record of 15 bytes is filled up")                                    \
    X(W10l21, "a frame without data has no line")                                     \
    X(W10l22, "a turn is refused")                                                    \
    X(W10m1, "the identifier is written in lower case")                               \
    X(W10m2, "the data is written in lower case")                                     \
    X(W10m3, "the identifier is written with four digits")                            \
    X(W10m4, "the identifier is written without leading zeros")                       \
    X(W10m5, "the line has no LF")                                                    \
    X(W10m6, "the line ends with CR and LF")                                          \
    X(W10m7, "two spaces stand before the name")                                      \
    X(W10m8, "spaces stand between the data bytes")                                   \
    X(W10m9, "eight data bytes are always written")                                   \
    X(W10m10, "a direction stands behind the data")                                   \
    X(W10n1, "the chosen name is not tested")                                         \
    X(W10n2, "the chosen name is tested with a frame only")                           \
    X(W10n3, "a chosen name that is refused is told as record 1")                     \
    X(W10o1, "lines and records are counted from 0")                                  \
    X(W10o2, "what stands behind a refusal is converted too")                         \
    X(W10o3, "a refusal is told on standard output")                                  \
    X(W10o4, "what stands before a refusal is lost")                                  \
    X(W10o5, "the records made so far are told, not the line")                        \
    X(W10o6, "the lines written so far are told, not the record")                     \
    X(W10o7, "a refused record is told as a line")                                    \
    X(W10o8, "a last part has the number of the record before it")                    \
    X(W10o9, "a refusal has no number")                                               \
    X(W10p1, "a request with a line of 96 bytes is bad")                              \
    X(W10p2, "any byte but 0 says that the reading has begun")                        \
    X(W10p3, "byte 3 of a request is not looked at")                                  \
    X(W10p4, "bytes 24 to 31 of a request to read are not looked at")                 \
    X(W10p5, "what stands behind the line is not looked at")                          \
    X(W10p6, "a request with a name of 24 bytes is bad")                              \
    X(W10p7, "a request with a record of 24 bytes is bad")                            \
    X(W10p8, "what stands behind the name is not looked at")                          \
    X(W10p9, "what stands behind the record is not looked at")                        \
    X(W10p10, "bytes 16 to 23 of a request to write are not looked at")               \
    X(W10p11, "a first line goes by the times in the request")                        \
    X(W10p12, "the first line's time is not kept")                                    \
    X(W10p13, "the time of the line before is kept for the next one")                 \
    X(W10p14, "a tick leaves the written time as it was")                             \
    X(W11a1, "a last consecutive frame stores its padding up to the end of the area") \
    X(W11b1, "11, where seven bytes would leave the area though fewer are missing")   \
    X(W11b2, "11, where the last byte of a message is the last of its area")          \
    X(W11b3, "a first frame of a message above A is refused with 11")                 \
    X(W11c1, "a frame's list that is not ten long is refused with 11, as it is free") \
    X(W11d1, "a node whose total is above A is refused with 11, not 1")               \
    X(W12a1, "a message of 8 bytes goes in a single frame")                           \
    X(W12a2, "a message of 7 bytes has a first frame")                                \
    X(W12a3, "a first frame takes seven bytes off")                                   \
    X(W12a4, "a first frame takes five bytes off")                                    \
    X(W12a5, "a consecutive frame has room for six bytes")                            \
    X(W12a6, "the bits of a length above 255 are lost")                               \
    X(W12a7, "the highest bit of a length is lost")                                   \
    X(W12a8, "the length told is that of what the first frame leaves")                \
    X(W12a9, "after SN 15 comes 16")                                                  \
    X(W12a10, "after SN 15 comes 1")                                                  \
    X(W12a11, "after SN 14 comes 0")                                                  \
    X(W12a12, "the first consecutive frame has SN 0")                                 \
    X(W12a13, "all frames are filled up with 00")                                     \
    X(W12a14, "a single frame is filled up with 00")                                  \
    X(W12a15, "a last consecutive frame is filled up with 00")                        \
    X(W12a16, "the rising message wraps at 255")                                      \
    X(W12a17, "a last frame holds seven bytes, of the message or not")                \
    X(W12a18, "a last frame that is full has an empty one behind it")                 \
    X(W12a19, "the low byte of a length above 255 stands before the high bits")       \
    X(W12b1, "the last frame asks for permission once more")                          \
    X(W12b2, "a last block that is full asks for permission once more")               \
    X(W12b3, "a permission sets the SN back to 1")                                    \
    X(W12b4, "a block has one frame more")                                            \
    X(W12b5, "each block but the first has one frame more")                           \
    X(W12b6, "a block has one frame less")                                            \
    X(W12b7, "BS 0 is taken as 1")                                                    \
    X(W12b8, "BS 0 is taken as 255")                                                  \
    X(W12b9, "BS 0 is taken as 256")                                                  \
    X(W12b10, "BS 255 is taken as no end")                                            \
    X(W12b11, "the first frame counts in the first block")                            \
    X(W12b12, "only one block has an end")                                            \
    X(W12b13, "only the low seven bits of BS count")                                  \
    X(W12b14, "only the low four bits of BS count")                                   \
    X(W12b15, "the first block needs no permission")                                  \
    X(W12b16, "a permission sets the SN back to 0")                                   \
    X(W12b17, "a single frame asks for permission")                                   \
    X(W12b18, "with BS 0 no permission is needed")                                    \
    X(W12c1, "BS and STmin are swapped in a permission")                              \
    X(W12c2, "a permission is filled up with 00")                                     \
    X(W12c3, "a permission says wait")                                                \
    X(W12c4, "a permission says overflow")                                            \
    X(W12c5, "a later permission has BS 0")                                           \
    X(W12c6, "a later permission has STmin 0")                                        \
    X(W12c7, "a permission has the gap, not the STmin")                               \
    X(W12c8, "a permission has STmin 1 for F1 to F9")                                 \
    X(W12c9, "a permission has 255 for BS 0")                                         \
    X(W12d1, "flow control has no number of its own")                                 \
    X(W12d2, "the frames are numbered from 0")                                        \
    X(W12d3, "there and back are swapped")                                            \
    X(W12d4, "the bytes are in lower case")                                           \
    X(W12d5, "the bytes have spaces between them")                                    \
    X(W12d6, "an SN is told in hex")                                                  \
    X(W12d7, "a length is told in hex")                                               \
    X(W12d8, "a length's low byte is told")                                           \
    X(W12d9, "a single frame's length is told as 8")                                  \
    X(W12d10, "a BS is told in hex")                                                  \
    X(W12d11, "an STmin is told in hex")                                              \
    X(W12d12, "an STmin of F1 to F9 is told in tenths")                               \
    X(W12d13, "a single frame is not delivered")                                      \
    X(W12d14, "the frames are told, not the bytes delivered")                         \
    X(W12e1, "without STMIN it is 0")                                                 \
    X(W12e2, "without BS and STMIN they are 0")                                       \
    X(W12e3, "what stands behind the third word is passed over")                      \
    X(W12e4, "without words the example is shown")                                    \
    X(W12f1, "a number may have ten digits")                                          \
    X(W12f2, "a number of nine digits is none")                                       \
    X(W12f3, "a number with zeros before it is none")                                 \
    X(W12f4, "an empty word is 0")                                                    \
    X(W12f5, "a plus before a number is passed over")                                 \
    X(W12f6, "a minus before a number is passed over")                                \
    X(W12f7, "spaces before a number are passed over")                                \
    X(W12f8, "what stands behind a number and a space is passed over")                \
    X(W12f9, "what stands behind a number and a line's end is passed over")           \
    X(W12f10, "the byte before 0 is a digit")                                         \
    X(W12f11, "the byte behind 9 is a digit")                                         \
    X(W12f12, "a number ends where its digits end, whatever stands behind them")      \
    X(W12f13, "a number may have any length, and is kept in 32 bits")                 \
    X(W12f14, "a number may have any length, and is kept in 64 bits")                 \
    X(W12f15, "a number that begins with 0 is octal")                                 \
    X(W12f16, "zeros before a number do not count among the nine digits")             \
    X(W12f17, "a LENGTH may have ten digits")                                         \
    X(W12f18, "a BS may have ten digits")                                             \
    X(W12f19, "an STMIN may have ten digits")                                         \
    X(W12f20, "an empty BS is 0")                                                     \
    X(W12f21, "an empty STMIN is 0")                                                  \
    X(W12g1, "LENGTH 0 is taken")                                                     \
    X(W12g2, "LENGTH 1 is refused")                                                   \
    X(W12g3, "LENGTH 4,095 is refused")                                               \
    X(W12g4, "LENGTH 4,096 is taken")                                                 \
    X(W12g5, "BS 255 is refused")                                                     \
    X(W12g6, "BS 256 is taken")                                                       \
    X(W12g7, "BS 0 is refused")                                                       \
    X(W12g8, "STMIN 127 is refused")                                                  \
    X(W12g9, "STMIN 128 is taken")                                                    \
    X(W12g10, "STMIN 240 is taken")                                                   \
    X(W12g11, "STMIN 241 is refused")                                                 \
    X(W12g12, "STMIN 249 is refused")                                                 \
    X(W12g13, "STMIN 250 is taken")                                                   \
    X(W12g14, "any byte is taken as STMIN")                                           \
    X(W12g15, "STMIN 241 to 249 are refused")                                         \
    X(W12g16, "STMIN 0 is refused")                                                   \
    X(W12g17, "LENGTH is kept in 16 bits")                                            \
    X(W12g18, "BS is kept in 8 bits")                                                 \
    X(W12g19, "STMIN is kept in 8 bits")                                              \
    X(W12g20, "BS is not tested for a single frame")                                  \
    X(W12g21, "STMIN is not tested for a single frame")                               \
    X(W12h1, "the count is tested behind the words")                                  \
    X(W12h2, "BS is tested before LENGTH")                                            \
    X(W12h3, "STMIN is tested before BS")                                             \
    X(W12h4, "all are read as numbers before any range is tested")                    \
    X(W12h5, "the last that is wrong is told")                                        \
    X(W12h6, "all that are wrong are told")                                           \
    X(W12i1, "a refusal is told on standard error")                                   \
    X(W12i2, "a word that is no number is told as LENGTH")                            \
    X(W12i3, "behind a refusal the exchange follows")                                 \
    X(W13a1, "a gap left does not fall while the berth's receive side is idle")       \
    X(W13a2, "the timer of a reception that awaits stops at 999")                     \
    X(W13a3, "an owed overflow waits for its turn for ever")                          \
    X(W13a4, "a single due waits for its turn for ever")                              \
    X(W13a5, "a frame due behind a gap waits for its turn for ever")                  \
    X(W13a6, "a gap left above the peer's gap does not fall")                         \
    X(W13a7, "a send side stands still while its berth receives")                     \
    X(W13a8, "a tick ends one side of a berth, and the other stays at 999")           \
    X(W13a9, "a tick leaves out the berth served last")                               \
    X(W13a10, "a tick goes no further than the first berth with a code")              \
    X(W13b1, "an owed overflow ends without a code")                                  \
    X(W13b2, "a code is reported with timer 999, and again with 1,000")               \
    X(W13b3, "after code 3 the side awaits flow control once more")                   \
    X(W13b4, "the code of a receive side is reported for an idle send side too")      \
    X(W13b5, "a timeout ends both sides of the berth")                                \
    X(W13b6, "of both codes of a berth in one tick only the receive side's is reported")\
    X(W13c1, "awaiting flow control ends with code 2")                                \
    X(W13c2, "a frame due behind a gap ends with code 3")                             \
    X(W13c3, "a timer that becomes 999 ends its side")                                \
    X(W13c4, "the ticks of a gap count for the timer, once it is over")               \
    X(W13c5, "a gap left of 128 passes in 127 ticks")                                 \
    X(W13d1, "a reception that ends with code 4 leaves the bytes got as a message")   \
    X(W13d2, "a send side that ends clears the berth's last length")                  \
    X(W13d3, "a berth that reports counts as served last")                            \
    X(W13d4, "a receive side that ends empties the berth's area")                     \
    X(W13d5, "the tick that leaves all sides idle clears the last lengths")           \
    X(W13e1, "a send side's code counts only beside a code of the receive side")      \
    X(W13e2, "a send side's code 2 counts as a reception failed with 2")              \
    X(W13f1, "the berth behind one with a code misses that tick")                     \
    X(W13f2, "a frame starts the receive timers of all berths again")                 \
    X(W13f3, "a turn starts the send timers of all berths again")                     \
    X(W13g1, "WAIT with timer 999 comes too late")                                    \
    X(W13g2, "a consecutive frame that is taken does not start the timer again")      \
    X(W13g3, "an ignored frame starts the send timer again")                          \
    X(W13g4, "a tick refused with 12 moves the timers")

#define AS_MUTANT(line, sentence) MISTAKE_##line,
enum { NO_MUTANT, MUTANTS(AS_MUTANT) REQUEST_MUTANTS(AS_MUTANT) MUTANT_COUNT };
#undef AS_MUTANT

/* What mutants make of the codes of a journal's records, code by code, where the rules say the opposite. */
#define JOURNAL_CODES(X)                                                              \
    X(receive, 0, "taken") X(receive, 1, "refused") X(receive, 2, "refused")          \
    X(receive, 3, "taken") X(receive, 4, "refused") X(receive, 5, "refused")          \
    X(receive, 6, "taken") X(receive, 7, "refused") X(receive, 8, "taken")            \
    X(receive, 9, "taken") X(receive, 10, "taken")                                    \
    X(send, 0, "taken") X(send, 1, "refused") X(send, 2, "refused")                   \
    X(send, 3, "refused") X(send, 4, "taken") X(send, 5, "taken")                     \
    X(send, 6, "refused") X(send, 7, "taken") X(send, 8, "taken")                     \
    X(send, 9, "refused") X(send, 10, "taken")

enum { CODE_TURNED_MAX = 10, side_receive = 1, side_send };

/*
 * Beside these stand one mutant for each range of the order, which drops that
 * range, two for each count of a card: one never raises it, the other does
 * not freeze the card for it, and one for each code of a journal's records.
 */
extern int mutant;

#define range_dropped(fault) (MUTANT_COUNT + (fault))
#define never_raised(count) (MUTANT_COUNT + FAULT_COUNT + (count))
#define never_freezes(count) (MUTANT_COUNT + FAULT_COUNT + COUNT_KINDS + (count))
#define code_turned(kind, code) \
    (MUTANT_COUNT + FAULT_COUNT + 2 * COUNT_KINDS + (int)(kind) * (CODE_TURNED_MAX + 1) + (int)(code))

/*
 * rule(8, 99a, 7) reads: the rule is 8, and the mutant of corner 99a has 7.
 * A mistake that is not one operand is asked for with mistake(99a).
 */
#define mistake(line) (mutant == MISTAKE_##line)
#define rule(right, line, wrong) (mistake(line) ? (wrong) : (right))

bool choose_mutant(const char *name);
void list_mutants(void);

#endif
