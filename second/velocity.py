"""What examples/velocity.c must print, from document 01 alone: round-bit words as pairs of whole numbers."""

READINGS, CUT, DEPTH, PERIODS = [1000, 2359, 811, 77], 4, 6, 10000


def sign_change(a, r):
    return -1 - a, 1 - r


def cut(a, r, d):
    return a >> d, (a >> (d - 1)) & 1


def rest(a, r, d):
    low = a % 2**d
    return low - 2**d if low >= 2 ** (d - 1) else low, r


def add(x, y):
    return x[0] + y[0] + (x[1] & y[1]), x[1] | y[1]


def run(name, round_bit_kept):
    half = [(a, 0) for a in READINGS]
    period = [cut(*w, CUT) for w in half + [sign_change(*w) for w in half]]
    into = out = 0
    kept = (0, 0)
    for _ in range(PERIODS):
        for word in period:
            kept = add(kept, word)
            assert -(2**31) <= kept[0] < 2**31
            into += sum(word)
        out += sum(cut(*kept, DEPTH)) * 2**DEPTH
        kept = rest(*kept, DEPTH)
        if not round_bit_kept:
            kept = (kept[0], 0)
    velocity = out / 1048576 * 1000
    print(f"{name}: in {into}, out {out}, kept {sum(kept)}, refused 0, velocity {velocity:.3f} mm/s")


run("this library", True)
run("the old one", False)
