/* What the C peer's words, running sum, filter bank, digit text and block sum need. */
#ifndef PEER_WORDS_H
#define PEER_WORDS_H

#include "peer.h"

static const frost_round_bit BLANK = {0, BLANK_WIDTH, 0, 0};

/* 1, 2 and 3 of a word; 0 where it has none of them. */
static inline uint32_t word_cause(frost_round_bit w)
{
    if (w.width < LEAST_WIDTH || MOST_WIDTH < w.width)
        return WIDTH_OUTSIDE;
    if (!good_unit(w.unit))
        return UNIT_OUTSIDE;
    if (!fits(w.number, w.width) || 1 < w.round)
        return NUMBER_OUTSIDE;
    return DONE;
}

static inline frost_round_bit_answer refused(uint32_t cause)
{
    return (frost_round_bit_answer){BLANK, cause};
}

/* Words that are good and of one format. */
static inline frost_round_bit added(frost_round_bit x, frost_round_bit y)
{
    x.number += y.number + (x.round & y.round);
    x.round |= y.round;
    return x;
}

static inline frost_round_bit cut(frost_round_bit w, uint64_t depth)
{
    if (depth == 0)
        return w;
    return (frost_round_bit){w.number >> depth, w.width - (uint32_t)depth, w.unit + (int32_t)depth,
                             w.number >> (depth - 1) & 1};
}

#endif
