/* How running sums are made, and how two are held together: a field more in them is named here and by the rules that
 * go by it, nowhere else. */
#ifndef SUMS_H
#define SUMS_H

#include "frostuldi.h"

static inline frost_running_sum made_sum(frost_round_bit kept, uint64_t depth)
{
    frost_running_sum s = {kept, depth};
    return s;
}

static inline int same_word(frost_round_bit x, frost_round_bit y)
{
    return x.number == y.number && x.round == y.round && x.width == y.width && x.unit == y.unit;
}

static inline int same_sum(frost_running_sum x, frost_running_sum y)
{
    return same_word(x.kept, y.kept) && x.depth == y.depth;
}

#endif
