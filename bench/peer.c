/* The C peer's words and running sum. */
#include "peer_words.h"
#include "sums.h"

static inline int differ(frost_round_bit x, frost_round_bit y)
{
    return x.width != y.width || x.unit != y.unit;
}

PEER frost_round_bit_answer peer_round_bit_sum(frost_round_bit x, frost_round_bit y)
{
    uint32_t cause = word_cause(x);
    if (cause == DONE)
        cause = word_cause(y);
    if (cause == DONE && differ(x, y))
        cause = OPERANDS_DIFFER;
    if (cause != DONE)
        return refused(cause);
    frost_round_bit sum = added(x, y);
    if (!fits(sum.number, sum.width))
        return refused(ANSWER_DOES_NOT_FIT);
    return (frost_round_bit_answer){sum, DONE};
}

/* 5 and 7 of a good word's cut. */
static inline uint32_t cut_cause(frost_round_bit w, uint64_t depth)
{
    if (w.width - LEAST_WIDTH < depth)
        return DEPTH_OUTSIDE;
    if (MOST_UNIT < w.unit + (int64_t)depth)
        return ANSWER_UNIT_OUTSIDE;
    return DONE;
}

PEER frost_round_bit_answer peer_round_bit_cut(frost_round_bit w, uint64_t depth)
{
    uint32_t cause = word_cause(w);
    if (cause == DONE)
        cause = cut_cause(w, depth);
    if (cause != DONE)
        return refused(cause);
    return (frost_round_bit_answer){cut(w, depth), DONE};
}

/* A cut whose round bit goes by the value: half a new unit above the floor is a tie, and goes to the even neighbour. */
static inline frost_round_bit even_cut(frost_round_bit w, uint64_t depth)
{
    frost_round_bit answer = cut(w, depth);
    if (depth == 0)
        return answer;
    int64_t above = w.number + w.round - (int64_t)((uint64_t)answer.number << depth);
    if (above == (int64_t)1 << (depth - 1))
        answer.round = answer.number & 1;
    return answer;
}

PEER frost_round_bit_answer peer_round_bit_even_cut(frost_round_bit w, uint64_t depth)
{
    uint32_t cause = word_cause(w);
    if (cause == DONE)
        cause = cut_cause(w, depth);
    if (cause != DONE)
        return refused(cause);
    return (frost_round_bit_answer){even_cut(w, depth), DONE};
}

static inline frost_round_bit sign_changed(frost_round_bit w)
{
    w.number = -1 - w.number;
    w.round = 1 - w.round;
    return w;
}

PEER frost_round_bit_answer peer_round_bit_product(frost_round_bit x, frost_round_bit y)
{
    uint32_t cause = word_cause(x);
    if (cause == DONE)
        cause = word_cause(y);
    if (cause != DONE)
        return refused(cause);
    uint32_t width = x.width + y.width - 1;
    int32_t unit = x.unit + y.unit;
    if (MOST_WIDTH < width)
        return refused(ANSWER_TOO_WIDE);
    if (!good_unit(unit))
        return refused(ANSWER_UNIT_OUTSIDE);
    int exactly_one = (x.number < 0) != (y.number < 0);
    if (x.number < 0)
        x = sign_changed(x);
    if (y.number < 0)
        y = sign_changed(y);
    frost_round_bit product = {x.number * y.number + x.number * y.round + y.number * x.round, width, unit,
                               x.round & y.round};
    if (exactly_one)
        product = sign_changed(product);
    return (frost_round_bit_answer){product, DONE};
}

static inline frost_sum_answer sum_done(frost_running_sum s, frost_round_bit word)
{
    return (frost_sum_answer){s, word, DONE};
}

/* A refused call leaves the sum as it was. */
static inline frost_sum_answer sum_refused(frost_running_sum s, uint32_t cause)
{
    return (frost_sum_answer){s, BLANK, cause};
}

/* 5 and 7 of a sum whose kept word is good. */
static inline uint32_t depth_cause(frost_running_sum s)
{
    return s.depth == 0 ? DEPTH_OUTSIDE : cut_cause(s.kept, s.depth);
}

PEER frost_sum_answer peer_running_sum_open(uint32_t width, int32_t unit, uint64_t depth)
{
    frost_running_sum s = made_sum((frost_round_bit){0, width, unit, 0}, depth);
    uint32_t cause = word_cause(s.kept);
    if (cause == DONE)
        cause = depth_cause(s);
    if (cause != DONE)
        return sum_refused(made_sum(BLANK, 0), cause);
    return sum_done(s, BLANK);
}

PEER frost_sum_answer peer_running_sum_put(frost_running_sum s, frost_round_bit w)
{
    uint32_t cause = word_cause(s.kept);
    if (cause == DONE)
        cause = word_cause(w);
    if (cause == DONE && differ(s.kept, w))
        cause = OPERANDS_DIFFER;
    if (cause == DONE)
        cause = depth_cause(s);
    if (cause != DONE)
        return sum_refused(s, cause);
    frost_round_bit sum = added(s.kept, w);
    if (!fits(sum.number, sum.width))
        return sum_refused(s, ANSWER_DOES_NOT_FIT);
    s.kept = sum;
    return sum_done(s, BLANK);
}

PEER frost_sum_answer peer_running_sum_hand_out(frost_running_sum s)
{
    uint32_t cause = word_cause(s.kept);
    if (cause == DONE)
        cause = depth_cause(s);
    if (cause != DONE)
        return sum_refused(s, cause);
    frost_round_bit word = cut(s.kept, s.depth);
    /* The rest keeps the old round bit; its number is the low digits, whose highest is a sign. */
    unsigned above = 64 - (unsigned)s.depth;
    s.kept.number = (int64_t)((uint64_t)s.kept.number << above) >> above;
    return sum_done(s, word);
}
