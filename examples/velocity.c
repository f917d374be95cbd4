/* Velocity from acceleration: samples go into a running sum, coarse words come out, and the words that came out add up to
 * the velocity. Beside it a sum as the old library kept it, without the round bit. docs/VELOCITY.md explains each step. */
#include "frostuldi.h"
#include <inttypes.h>
#include <stdio.h>

enum { READING = 20, CUT = 4, SUM = 32, DEPTH = 6, PERIODS = 10000, HALF_PERIOD = 4 };

/* Readings of 20 digits, in units of 2^-14 m/s^2; the second half of a period is the first with its sign changed. */
static const int64_t readings[HALF_PERIOD] = {1000, 2359, 811, 77};

/* A reading cut to 16 digits: a sample in units of 2^-10 m/s^2, as the recorder stores it. */
static frost_round_bit sample(int i) {
    frost_round_bit w = {.number = readings[i % HALF_PERIOD], .width = READING, .unit = -14};
    if (i >= HALF_PERIOD)
        w = frost_round_bit_sign_change(w).word;
    w = frost_round_bit_cut(w, CUT).word;
    w.width = SUM; /* the same number in a wider format */
    return w;
}

/* What a word is worth in its own units. */
static int64_t worth(frost_round_bit w) { return w.number + w.round; }

/* One sum over all periods: what went in and what came out, in units of the samples. */
static void run(const char *name, int round_bit_kept) {
    int64_t in = 0, out = 0;
    int refused = 0;
    frost_sum_answer a = frost_running_sum_open(SUM, -10, DEPTH);
    for (int period = 0; period < PERIODS; period++) {
        for (int i = 0; i < 2 * HALF_PERIOD; i++) {
            frost_round_bit w = sample(i);
            a = frost_running_sum_put(a.sum, w);
            if (a.refusal == 0)
                in += worth(w);
            else
                refused++;
        }
        a = frost_running_sum_hand_out(a.sum);
        if (a.refusal == 0)
            out += worth(a.word) * (1 << DEPTH);
        else
            refused++;
        if (!round_bit_kept)
            a.sum.kept.round = 0; /* the fault of the old library */
    }
    /* A sample lasts 2^-10 s, so a unit of 2^-10 m/s^2 adds 2^-20 m/s. */
    printf("%s: in %" PRId64 ", out %" PRId64 ", kept %" PRId64 ", refused %d, velocity %.3f mm/s\n", name, in, out,
           worth(a.sum.kept), refused, (double)out / 1048576 * 1000);
}

int main(void) {
    run("this library", 1);
    run("the old one", 0);
}
