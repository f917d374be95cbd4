/* The C peer's import of binary64 samples, by the C library: ldexp counts the units, without loss but for counts past
 * any width and counts near 0. No program here leaves the rounding mode that it starts in, by which nearbyint takes a
 * tie to the even count. */
#include <math.h>
#include <string.h>

#include "peer.h"

static inline double sample(uint64_t bits)
{
    double value;
    memcpy(&value, &bits, sizeof value);
    return value;
}

/* 1, 2, 15. */
static inline uint32_t import_cause(double value, uint32_t width, int32_t unit)
{
    if (width < LEAST_WIDTH || MOST_WIDTH < width)
        return WIDTH_OUTSIDE;
    if (!good_unit(unit))
        return UNIT_OUTSIDE;
    if (!isfinite(value))
        return NOT_FINITE;
    return DONE;
}

/* Asked in doubles, before the cast: either end is a double, but the greatest number need not be one. */
static inline int count_fits(double count, uint32_t width)
{
    double end = (double)((int64_t)1 << (width - 1));
    return -end <= count && count < end;
}

static inline frost_plain_answer plain_refused(uint32_t cause)
{
    return (frost_plain_answer){{0, BLANK_WIDTH, 0}, cause};
}

PEER frost_plain_answer peer_plain_from_binary64(uint64_t bits, uint32_t width, int32_t unit)
{
    double value = sample(bits);
    uint32_t cause = import_cause(value, width, unit);
    if (cause != DONE)
        return plain_refused(cause);
    double count = nearbyint(ldexp(value, -unit));
    if (!count_fits(count, width))
        return plain_refused(ANSWER_DOES_NOT_FIT);
    return (frost_plain_answer){{(int64_t)count, width, unit}, DONE};
}

static inline frost_half_unit_answer half_unit_refused(uint32_t cause)
{
    return (frost_half_unit_answer){{0, BLANK_WIDTH, 0}, cause};
}

PEER frost_half_unit_answer peer_half_unit_from_binary64(uint64_t bits, uint32_t width, int32_t unit)
{
    double value = sample(bits);
    uint32_t cause = import_cause(value, width, unit);
    if (cause != DONE)
        return half_unit_refused(cause);
    double count = ldexp(value, -unit);
    double below = floor(count);
    if (!count_fits(below, width))
        return half_unit_refused(ANSWER_DOES_NOT_FIT);
    int64_t number = (int64_t)below;
    /* A whole count is a tie, and goes to the number whose lowest digit is clear. But 0 may be all that ldexp has left
     * of a count too small for a double, and below a negative one lies -1. */
    if (below == count)
        number = count == 0 ? -(value < 0) : number & ~(int64_t)1;
    return (frost_half_unit_answer){{number, width, unit}, DONE};
}
