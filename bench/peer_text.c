/* The C peer's digit text. */
#include "peer_words.h"

/* 1, 2, 3, 10. */
static inline uint32_t text_write_cause(frost_round_bit w, size_t room)
{
    uint32_t cause = word_cause(w);
    if (cause == DONE && room < w.width)
        cause = BUFFER_TOO_SHORT;
    return cause;
}

/* A digit is the bit below it less its own, and below the lowest is the round bit: these two bits say its byte. Without
 * a branch: no processor foresees them, and C would seem slower than it is. */
static inline void put_digits(uint8_t *text, frost_round_bit w)
{
    static const uint8_t digit_bytes[] = {ZERO, PLUS, MINUS, ZERO};
    /* Number and round bit, moved up so that the two bits of the next digit are the top ones. */
    uint64_t bits = (2 * (uint64_t)w.number + w.round) << (MOST_WIDTH - w.width);
    for (uint32_t k = 0; k < w.width; k++) {
        text[k] = digit_bytes[bits >> 62];
        bits <<= 1;
    }
}

PEER frost_written peer_digit_text_write(frost_round_bit w, uint8_t *text, size_t room)
{
    uint32_t cause = text_write_cause(w, room);
    if (cause != DONE)
        return (frost_written){0, cause};
    put_digits(text, w);
    return (frost_written){w.width, DONE};
}

/* 1 and 2: the length is the width, and may be more than a width can say. */
static inline uint32_t text_format_cause(size_t length, int32_t unit)
{
    if (length < LEAST_WIDTH || MOST_WIDTH < length)
        return WIDTH_OUTSIDE;
    if (!good_unit(unit))
        return UNIT_OUTSIDE;
    return DONE;
}

/* The leftmost byte that is none of the three, or the length. */
static inline size_t strange_place(const uint8_t *text, size_t length)
{
    for (size_t k = 0; k < length; k++)
        if (text[k] != PLUS && text[k] != ZERO && text[k] != MINUS)
            return k;
    return length;
}

/* The leftmost sign that repeats the sign before it, or the length. No zero is kept as a sign, so none repeats one, and
 * no branch asks for zeros, here and for the word: no processor foresees them, and C would seem slower than it is. */
static inline size_t repeat_place(const uint8_t *text, size_t length)
{
    uint8_t before = 0;
    for (size_t k = 0; k < length; k++) {
        if (text[k] == before)
            return k;
        if (text[k] != ZERO)
            before = text[k];
    }
    return length;
}

/* A text without a fault. */
static inline frost_round_bit text_word(const uint8_t *text, size_t length, int32_t unit)
{
    int64_t value = 0;
    uint8_t round = 0;
    for (size_t k = 0; k < length; k++) {
        value = 2 * value + (text[k] == PLUS) - (text[k] == MINUS);
        if (text[k] != ZERO)
            round = text[k] == PLUS;
    }
    return (frost_round_bit){value - round, (uint32_t)length, unit, round};
}

static inline frost_text_answer text_refused(uint32_t cause, size_t place)
{
    return (frost_text_answer){BLANK, cause, (uint32_t)place};
}

PEER frost_text_answer peer_digit_text_read(const uint8_t *text, size_t length, int32_t unit)
{
    uint32_t cause = text_format_cause(length, unit);
    if (cause != DONE)
        return text_refused(cause, 0);
    size_t strange = strange_place(text, length);
    if (strange < length)
        return text_refused(BYTE_OUTSIDE, strange);
    size_t repeated = repeat_place(text, length);
    if (repeated < length)
        return text_refused(SIGN_REPEATED, repeated);
    return (frost_text_answer){text_word(text, length, unit), DONE, 0};
}
