#!/usr/bin/env python3
"""Print the two-row pictures of P6, of its sign change and of its cut by 2, for new staff.

From document 000, section 3.1 (the picture), 01 (the rules, P6) and 02 (Ask 5). Four lines for
a round-bit word (a, r) of width n: the word; the low n digits of 2a + r; those of a; and in
each column the top digit less the bottom one. All rows have the most significant digit first.
"""

LABELS = "top row, 2a + r", "bottom row, a", "top less bottom"


def sign_change(a, r, n):  # "Sign change: (-1-a, 1-r)."
    return -1 - a, 1 - r, n


def cut(a, r, n, d):  # "The old round bit is dropped."
    # "For d >= 1 the answer is (floor(a / 2^d), digit d-1 of a), width n-d"
    return a // 2**d, a // 2**(d - 1) % 2, n - d


def picture(a, r, n):
    # "the word doubled on top, the word below, each digit the top less the bottom" (Ask 5);
    # 000: the bit "in the upper rightmost corner (in boldface) acts as a round bit"
    top, bottom = [f"{row % 2**n:0{n}b}" for row in (2 * a + r, a)]  # the low n digits
    digits = [int(t) - int(b) for t, b in zip(top, bottom)]
    # "`+` is 1, `-` is -1"
    return top, bottom, "".join({1: "+", 0: "0", -1: "-"}[digit] for digit in digits)


P6 = -718, 0, 11
CHANGED, SHORT = sign_change(*P6), cut(*P6, 2)
# "P6 width 11, (-718,0) cut by 2 = (-180,1)"; "Digit text before: `-+-0+0-0+-0`."
assert CHANGED == (717, 1, 11) and SHORT == (-180, 1, 9)
# 000's two examples, with "no need to include the most significant position" of their rows
assert picture(*P6) == ("01001100100", "10100110010", "-+-0+0-0+-0")
assert picture(*SHORT) == ("010011001", "101001100", picture(*P6)[2][:9])
# 000, Observation 7: "the 1's complement" in both rows, so every digit is turned over
assert picture(*CHANGED)[2] == picture(*P6)[2].translate(str.maketrans("+-", "-+"))
for a, r, n in (P6, CHANGED, SHORT):
    digits = ["-0+".index(sign) - 1 for sign in reversed(picture(a, r, n)[2])]  # lowest first
    # "Digit i is (digit i-1 of a) minus (digit i of a), with r below the lowest"
    assert digits == [(a // 2**(i - 1) % 2 if i else r) - a // 2**i % 2 for i in range(n)]
    assert sum(digit * 2**i for i, digit in enumerate(digits)) == a + r  # "value a + r units"
    signs = [digit for digit in digits if digit]  # "The alternation of the signs"
    assert all(low == -high for low, high in zip(signs, signs[1:]))

for a, r, n in (P6, CHANGED, SHORT):
    print(f"({a},{r}), width {n}")
    for label, line in zip(LABELS, picture(a, r, n)):
        print(f"{label:19}{' '.join(line)}")
