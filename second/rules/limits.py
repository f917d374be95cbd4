"""The numbers of documents 01 and 02, each once, for the scripts beside this folder."""

# "Each has a width n, 2 to 63 digits, and a unit 2^e with e from -127 to 127."
LEAST_WIDTH, MOST_WIDTH = 2, 63
LEAST_UNIT, MOST_UNIT = -127, 127

BLANK = (0, 0, 2, 0)  # "the blank word (number 0, round bit 0, width 2, unit 0)"

# "Refusal numbers", and what document 02 makes of them
DONE = 0
WIDTH_OUTSIDE = 1
UNIT_OUTSIDE = 2
NUMBER_OUTSIDE = 3
OPERANDS_DIFFER = 4
DEPTH_OUTSIDE = 5
ANSWER_UNIT_OUTSIDE = 7
ANSWER_DOES_NOT_FIT = 8
SIGN_REPEATED = 9
BUFFER_TOO_SHORT = 10
MARK_OR_VERSION_WRONG = 11
LENGTH_KIND_OR_COUNT_WRONG = 12
BYTE_WRONG = 13


def width_is_good(n):
    return LEAST_WIDTH <= n <= MOST_WIDTH


def unit_is_good(e):
    return LEAST_UNIT <= e <= MOST_UNIT


def fits(number, n):  # "The number in it lies from -2^(n-1) to 2^(n-1)-1."
    return -2**(n - 1) <= number <= 2**(n - 1) - 1
