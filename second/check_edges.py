#!/usr/bin/env python3
"""Print the first of the refusal causes 1, 2, 3 of a word, 0 if it has none, by document 01.

Each line: WIDTH UNIT NUMBER PLAIN HALF R0 R1 R2 R255, where PLAIN and HALF are
the refusal numbers of the plain and the half-unit word, and R0, R1, R2, R255
those of the round-bit word with round bit 0, 1, 2, 255.
"""

from rules.limits import *

WIDTHS = (0, LEAST_WIDTH - 1, LEAST_WIDTH, MOST_WIDTH, MOST_WIDTH + 1, 2**32 - 1)
UNITS = (-2**31, LEAST_UNIT - 1, LEAST_UNIT, MOST_UNIT, MOST_UNIT + 1)
HALF = 2**(MOST_WIDTH - 1)
NUMBERS = (-2**63, -HALF - 1, -HALF, -3, -2, -1, 0, 1, 2, HALF - 1, HALF, 2**63 - 1)
ROUND_BITS = (0, 1, 2, 255)


def refusal(n, e, number, r=None):
    """r is None for a plain or a half-unit word, which have no round bit."""
    # 1: "a width is outside 2 to 63"
    if not width_is_good(n):
        return WIDTH_OUTSIDE
    # 2: "a unit exponent is outside -127 to 127"
    if not unit_is_good(e):
        return UNIT_OUTSIDE
    # 3: "a number is outside its width"
    if not fits(number, n):
        return NUMBER_OUTSIDE
    # 3: "or a round bit is not 0 or 1"
    return DONE if r in (None, 0, 1) else NUMBER_OUTSIDE


for n in WIDTHS:
    for e in UNITS:
        for number in NUMBERS:
            plain = half = refusal(n, e, number)
            print(n, e, number, plain, half, *(refusal(n, e, number, r) for r in ROUND_BITS))
