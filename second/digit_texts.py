#!/usr/bin/env python3
"""Print what writing and reading digit texts of round-bit words answer, by documents 01 and 02.

Writing: `write N A R OUTCOME COUNT BUFFER`, the word (A, R) of width N and unit 0 written
into a buffer of `?` bytes; COUNT bytes are written, BUFFER is the whole buffer afterwards.
Reading: `read TEXT OUTCOME NUMBER ROUNDBIT WIDTH UNIT PLACE`, the answered word and the
place of what is wrong in the text, 0 where nothing is or where it is no byte of it.
"""

from itertools import product

from rules.limits import *


def digit_text(n, a, r):
    # "Digit i is (digit i-1 of a) minus (digit i of a), with r below the lowest"
    low_first = [r] + [a // 2**i % 2 for i in range(n)]
    digits = [low_first[i] - low_first[i + 1] for i in range(n)]
    # "n bytes, most significant first"; "`+` is 1, `-` is -1"
    return "".join({1: "+", 0: "0", -1: "-"}[d] for d in reversed(digits))


def write(n, e, a, r, size):
    before = "?" * size
    # "A refusal returns ...; lent buffers ... stay as they were"; "0 when refused"
    if not width_is_good(n):  # 1: "a width is outside 2 to 63"
        return WIDTH_OUTSIDE, 0, before
    if not unit_is_good(e):  # 2: "a unit exponent is outside -127 to 127"
        return UNIT_OUTSIDE, 0, before
    # 3: "a number is outside its width, or a round bit is not 0 or 1"
    if not fits(a, n) or r not in (0, 1):
        return NUMBER_OUTSIDE, 0, before
    if size < n:  # 10: "a lent buffer is too short for what would be written"
        return BUFFER_TOO_SHORT, 0, before
    # "Only n bytes of the buffer are written."
    return DONE, n, digit_text(n, a, r) + before[n:]


def read(text, e):
    n = len(text)  # "its length is the width"
    # "Done and the other refusals give place 0."
    if not width_is_good(n):
        return WIDTH_OUTSIDE, *BLANK, 0
    if not unit_is_good(e):
        return UNIT_OUTSIDE, *BLANK, 0
    # "13 stands directly before 9; a text with both faults gives 13"
    # 13: "a byte outside the three"; "it is the leftmost such byte"
    strange = [place for place in range(n) if text[place] not in "+0-"]
    if strange:
        return BYTE_WRONG, *BLANK, min(strange)
    # 9: "two nonzero digits of one sign with nothing or only zeros between them"; "it is the
    # leftmost sign that repeats the sign before it"
    signs = [place for place in range(n) if text[place] in "+-"]
    repeated = [place for before, place in zip(signs, signs[1:]) if text[before] == text[place]]
    if repeated:
        return SIGN_REPEATED, *BLANK, min(repeated)
    if set(text) == {"0"}:  # "All zeros reads as (0,0)"
        return DONE, 0, 0, n, e, 0
    # "the answer is the word whose digit text it is": the one among all words
    (a, r), = [(a, r) for a in range(-2**(n - 1), 2**(n - 1)) for r in (0, 1)
               if digit_text(n, a, r) == text]
    return DONE, a, r, n, e, 0


# "`-+-0+0-0+-0`" (P6); "Digit text `+0+` gives 9; `+-` with unit 0 reads as (1,0), width 2";
# "`0+` is (0,1)"
assert write(11, 0, -718, 0, 12) == (0, 11, "-+-0+0-0+-0?")
assert read("+-", 0) == (0, 1, 0, 2, 0, 0)
assert read("+0+", 0) == (9, *BLANK, 2)
assert read("0+", 0) == (0, 0, 1, 2, 0, 0)
# Ask 3: "a stray blank", "two plus signs", "a text with both faults", "the other refusals"
assert read("+ +", 0) == (13, *BLANK, 1)
assert read("++-", 0) == (9, *BLANK, 1)
assert read("+0-0-+?", 0) == (13, *BLANK, 6)
assert read("x" * 64, 0) == (1, *BLANK, 0)
assert read("x+", 128) == (2, *BLANK, 0)

for n in range(LEAST_WIDTH, 7):
    for a in range(-2**(n - 1), 2**(n - 1)):
        for r in (0, 1, 2):
            print("write", n, a, r, *write(n, 0, a, r, 8))
for n, a, r, size in ((11, -718, 0, 8), (11, -718, 0, 12), (4, 5, 1, 3), (4, 5, 1, 4)):
    print("write", n, a, r, *write(n, 0, a, r, size))
for n in range(5):
    for letters in product("+0-x", repeat=n):
        print("read", "".join(letters), *read("".join(letters), 0))
for e in (LEAST_UNIT - 1, LEAST_UNIT, 0, MOST_UNIT, MOST_UNIT + 1):
    print("read", "+-", *read("+-", e))
for text in ("+ +", "+0+", "++-", "+0-0-+?", "x" * (MOST_WIDTH + 1)):
    print("read", text, *read(text, 0))
