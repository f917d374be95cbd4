// SystemC's sc_fix_fast for the running sum: 16 digits before the point and 16 behind it, handed out with SC_RND.
//
// It checks no width, unit or round bit, and has no round bit to keep; its numbers wrap where they do not fit. SC_RND
// takes a tie up, as a hand-out does, but of a value and not of a number with a round bit beside it, so single words
// may differ and only the totals are held together.
#define SC_INCLUDE_FX
#include <systemc>
#include <vector>

extern "C" {
#include "work.h"
void systemc_prepare(const struct work *w);
loop systemc_put_hand_out;
}

using sc_dt::sc_fix_fast;

static std::vector<sc_fix_fast> samples;

void systemc_prepare(const struct work *w)
{
    samples.assign(MOST_WORDS, sc_fix_fast(SUM_WIDTH, SUM_WIDTH + SUM_UNIT));
    for (int i = 0; i < MOST_WORDS; i++)
        samples[i] = static_cast<double>(w->samples[i].number + w->samples[i].round) / (1 << -SUM_UNIT);
}

void systemc_put_hand_out(const struct work *, struct answers *a)
{
    sc_fix_fast kept(SUM_WIDTH, SUM_WIDTH + SUM_UNIT);
    sc_fix_fast coarse(SUM_WIDTH - SUM_DEPTH, SUM_WIDTH + SUM_UNIT, sc_dt::SC_RND, sc_dt::SC_WRAP);
    for (int i = 0; i < MOST_WORDS; i++) {
        kept += samples[i];
        coarse = kept;
        kept -= coarse;
        a->words[i].word.number = coarse.to_int64();
    }
}

// The library asks for it; the program has a `main` of its own.
int sc_main(int, char **)
{
    return 0;
}
