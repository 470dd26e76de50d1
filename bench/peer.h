/*
 * peer.h - read before each file of the peer: no mutant is switched on, as a
 * constant, so that the compiler leaves no question for one in the code.
 */
#include "../tests/peer/mutants.h"

#define mutant NO_MUTANT
