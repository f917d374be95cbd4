#!/usr/bin/env python3
"""Print a trace of the running sum of document 01, with its totals.

First bench sheet P14, a line per call. Then 10000 words of a fixed signal, put
into a sum of width 24, unit -8, depth 8, and into a second one with a fault. At
each thousandth word: the outcomes of six calls in a row; at 5000 and 10000 what
empty answers; the total accepted, the total handed out and the value kept, of
both sums, in half units of 2^-8; and how far the faulty sum has crept.
A word is (number, round bit, width, unit); a running sum is (kept word, depth).
"""

from rules.limits import *

# The long signal's sum: its format and depth.
WIDTH, UNIT, DEPTH = 24, -8, 8
WORDS, A_PART, EMPTIED = 10000, 1000, (5000, 10000)


def own(word):
    """The first of the causes 1, 2, 3 of a round-bit word, 0 if it has none."""
    a, r, n, e = word
    if not width_is_good(n):
        return WIDTH_OUTSIDE
    if not unit_is_good(e):
        return UNIT_OUTSIDE
    return DONE if fits(a, n) and r in (0, 1) else NUMBER_OUTSIDE


def add(kept, word):  # "Sum: (a + b + (ra and rb), ra or rb) in the common width"
    (a, ra, n, e), (b, rb) = kept, word[:2]
    return (a + b + (ra & rb), ra | rb, n, e)


def refusal(kept, d, word=None):  # hand out and empty take no word
    # "1, 2, 3 of the first operand, then 1, 2, 3 of the second, then the lowest
    # of the others"; the running sum "is the first operand"
    first = own(kept) or (own(word) if word else DONE)
    if first:
        return first
    n, e = kept[2:]
    others = {
        # "a word and its running sum, differ in width or unit"
        OPERANDS_DIFFER: word and word[2:] != (n, e),
        # "a depth of 0 or more than its width less 2"
        DEPTH_OUTSIDE: d == 0 or d > n - LEAST_WIDTH,
        # "(e+d over 127)"
        ANSWER_UNIT_OUTSIDE: e + d > MOST_UNIT,
        # "does not fit its width"
        ANSWER_DOES_NOT_FIT: word and not fits(add(kept, word)[0], n)}
    return min((no for no in others if others[no]), default=DONE)


# Each of these is called only when not refused, and answers (word, sum it leaves).
def put(kept, d, word):  # "kept becomes the sum of kept and the word. It hands back no word."
    return BLANK, (add(kept, word), d)


def hand_out(kept, d):  # "returns the cut of kept by d; kept becomes the rest"
    a, r, n, e = kept
    top = a // 2**(d - 1) % 2
    cut = (a // 2**d, top, n - d, e + d)  # "(floor(a / 2^d), digit d-1 of a), width n-d, unit e+d"
    # "its number is the low d digits read as two's complement, its round bit the old r"
    return cut, ((a % 2**d - top * 2**d, r, n, e), d)


def empty(kept, d):  # "returns the kept word whole; kept becomes (0,0)"
    return kept, ((0, 0) + kept[2:], d)


class Trace:
    """Makes each call "on the sum that the call before left", and totals the done answers."""

    def __init__(self, n, e, d, faulty=False):  # "of width N and unit e, at first (0,0)"
        self.sum, self.faulty, self.taken, self.given = ((0, 0, n, e), d), faulty, 0, 0

    def half_units(self, word):  # "value a + r units", in half units of the sum's unit
        return 2 * (word[0] + word[1]) * 2**(word[3] - self.sum[0][3])

    def call(self, op, *word):
        no = refusal(*self.sum, *word)
        if no:  # "returns the blank word"; "the running sum stay as they were"
            return no, BLANK
        answer, self.sum = op(*self.sum, *word)
        if op is put:
            self.taken += self.half_units(word[0])
        else:  # "Words handed out by either call count in the total."
            self.given += self.half_units(answer)
        (a, r, n, e), d = self.sum
        if op is hand_out and self.faulty:
            self.sum = (a, 0, n, e), d  # "Rest without the old round bit: the total then creeps."
        elif op is hand_out:
            assert 2 * abs(a + r) <= 2**d  # at most half a coarse unit is kept
        return no, answer


# "running sum N = 8, d = 2: put (3,0), hand out (0,1), kept (-1,0); put (3,0), hand
# out (0,1), kept (-2,0); put (0,1), hand out (-1,1), kept (-2,1)"
trace = Trace(8, 0, 2)
P14 = ((3, 0), (0, 1), (-1, 0)), ((3, 0), (0, 1), (-2, 0)), ((0, 1), (-1, 1), (-2, 1))
for word, out, rest in P14:
    no_put, _ = trace.call(put, word + (8, 0))
    print("put", no_put, "kept", *trace.sum[0][:2])
    no, answer = trace.call(hand_out)
    print("hand out", no, "word", *answer[:2], "kept", *trace.sum[0][:2])
    assert (no_put, no, answer, trace.sum[0]) == (0, 0, out + (6, 2), rest + (8, 0))

HIGH, LOW, OTHER_UNIT = (8000000, 0, WIDTH, UNIT), (-8000000, 0, WIDTH, UNIT), (1, 1, WIDTH, UNIT + 1)
SIX = (hand_out,), (hand_out,), (put, HIGH), (put, HIGH), (put, LOW), (put, OTHER_UNIT)
x, both = 1, (Trace(WIDTH, UNIT, DEPTH), Trace(WIDTH, UNIT, DEPTH, faulty=True))
for k in range(1, WORDS + 1):
    x = (75 * x + 74) % 65537
    for t in both:
        t.call(put, (x % 401 - 200, x // 401 % 2, WIDTH, UNIT))
        if k % 16 == 0:
            t.call(hand_out)
    if k % A_PART != 0:
        continue
    six, _ = [[t.call(*c)[0] for c in SIX] for t in both]
    print("calls", *six)
    if k in EMPTIED:
        (no, answer), _ = [t.call(empty) for t in both]
        print("empty", no, "word", *answer[:2])
    (i, o, v), (ic, oc, vc) = [(t.taken, t.given, t.half_units(t.sum[0])) for t in both]
    assert i == o + v and (k not in EMPTIED or (i == o and v == 0))
    print(f"{k} in {i} out {o} kept {v} crept in {ic} out {oc} kept {vc} by {ic - oc - vc}")
