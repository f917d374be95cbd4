/* The C peer's filter bank. */
#include "peer_words.h"

/* 1, 2 and 3 of eight words, word by word. */
static inline uint32_t words_cause(const frost_round_bit *words)
{
    for (int i = 0; i < TAPS; i++) {
        uint32_t cause = word_cause(words[i]);
        if (cause != DONE)
            return cause;
    }
    return DONE;
}

static inline int unlike(const frost_round_bit *words, uint32_t width)
{
    for (int i = 0; i < TAPS; i++)
        if (words[i].width != width || words[i].unit != words[0].unit)
            return 1;
    return 0;
}

/* All but 17. */
static inline uint32_t channel_cause(const frost_round_bit *taps, const frost_round_bit *samples)
{
    uint32_t cause = words_cause(taps);
    if (cause == DONE)
        cause = words_cause(samples);
    if (cause != DONE)
        return cause;
    if (unlike(taps, TAP_WIDTH) || unlike(samples, SAMPLE_WIDTH))
        return OPERANDS_DIFFER;
    int32_t unit = taps->unit + samples->unit;
    if (!good_unit(unit) || !good_unit(unit + BANK_DEPTH))
        return ANSWER_UNIT_OUTSIDE;
    return DONE;
}

/* A product is worth what its words are worth, multiplied; its round bit goes by their signs. Without a branch: no
 * processor foresees sixteen signs, and C would seem slower than it is. */
static inline frost_round_bit multiplied(frost_round_bit x, frost_round_bit y)
{
    int x_negative = x.number < 0, y_negative = y.number < 0;
    uint8_t round = ((x.round ^ x_negative) & (y.round ^ y_negative)) ^ x_negative ^ y_negative;
    int64_t value = (x.number + x.round) * (y.number + y.round);
    return (frost_round_bit){value - round, BANK_SUM_WIDTH, x.unit + y.unit, round};
}

PEER frost_round_bit_answer peer_bank_output(frost_bank bank, frost_window window, uint32_t channel)
{
    if (CHANNELS <= channel)
        return refused(CHANNEL_OUTSIDE);
    const frost_round_bit *taps = bank.channels[channel].taps, *samples = window.samples;
    uint32_t cause = channel_cause(taps, samples);
    if (cause != DONE)
        return refused(cause);
    /* Eight products of 27 digits add up in 31: nothing is to be tested for 8. */
    frost_round_bit sum = multiplied(taps[0], samples[0]);
    for (int i = 1; i < TAPS; i++)
        sum = added(sum, multiplied(taps[i], samples[i]));
    return (frost_round_bit_answer){cut(sum, BANK_DEPTH), DONE};
}
