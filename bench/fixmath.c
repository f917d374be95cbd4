/* libfixmath's fix16 for the running sum: 16 digits before the point and 16 behind it.
 *
 * It checks no width, unit or round bit; its additions test for overflow. fix16_to_int takes a tie away from zero, a
 * hand-out takes it up, so single words may differ and only the totals are held together. */
#include <libfixmath/fix16.h>

#include "work.h"

static fix16_t samples[MOST_WORDS];

void fixmath_prepare(const struct work *w);
loop fixmath_put_hand_out;

void fixmath_prepare(const struct work *w)
{
    for (int i = 0; i < MOST_WORDS; i++)
        samples[i] = (fix16_t)w->samples[i].number + w->samples[i].round;
}

void fixmath_put_hand_out(const struct work *w, struct answers *a)
{
    (void)w;
    fix16_t kept = 0;
    for (int i = 0; i < MOST_WORDS; i++) {
        kept = fix16_add(kept, samples[i]);
        int coarse = fix16_to_int(kept);
        kept = fix16_sub(kept, fix16_from_int(coarse));
        a->words[i].word.number = coarse;
    }
}
