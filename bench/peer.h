/* What all parts of the C peer need. The peer is the documents once more in plain C, with the same checks in the same
 * order as the library: peer.c has the words and the running sum, peer_bank.c the filter bank, peer_import.c the import
 * of binary64 samples, peer_text.c the digit text, peer_file.c the block file, the reading and the listing,
 * peer_block_sum.c the block sum.
 *
 * Compiled by itself each part stands behind the same kind of call as the library. A loop that defines PEER as
 * `static inline` and includes all texts has the same C without any call. */
#ifndef PEER_H
#define PEER_H

#include "calls.h"
#include "rules.h"

/* RECURSION stands before a function that calls itself. With `inline` the compiler puts several of its steps into one;
 * behind a call each step is a call, too. */
#ifndef PEER
#define PEER
#define RECURSION static
DECLARE(peer);
#else
#define RECURSION static inline
#endif

static inline int good_unit(int32_t unit)
{
    return LEAST_UNIT <= unit && unit <= MOST_UNIT;
}

/* Asked only of a width that is one. */
static inline int fits(int64_t number, uint32_t width)
{
    uint64_t half = (uint64_t)1 << (width - 1);
    return (uint64_t)number + half < 2 * half;
}

#endif
