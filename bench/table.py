#!/usr/bin/env python3
"""Reads lines `ROW PEER PIECES COST` and prints the table of ratios, library / peer, each aim beside its ratio."""
import sys

ROWS = {
    "sum": "sum",
    "cut": "cut",
    "even-cut": "even cut",
    "product": "product",
    "put-hand-out": "put + hand-out",
    "bank": "bank, one output",
    "import-plain": "import to plain",
    "import-half": "import to half-unit",
    "text-write": "digit text written",
    "text-read": "digit text read",
    "read": "file read, 8,000 records",
    "write": "file write, 8,000 records",
    "read-2": "file read, 8,000 of version 2",
    "write-2": "file write, 8,000 of version 2",
    "reading": "reading, 8,000 records",
    "block-sum": "block sum, 8,000 records",
    "block-sum-1000000": "block sum, 1,000,000 records",
    "listing": "listing, 8,000 records",
    "listing-little": "the same in less room",
    "listing-2": "listing, 8,000 of version 2",
    "program": "listing program, 8,000 records",
}
PEERS = {"call": "C behind a call", "inlined": "C inlined", "second": "second program"}
LOOP = {"from-left": "C loop from left"}
PACKAGES = {"libfixmath": "libfixmath", "sc_fix_fast": "`sc_fix_fast`"}
# The row of many records and the row of few.
GROWING = {
    ("read", "read-1000"): "file read",
    ("write", "write-1000"): "file write",
    ("listing", "listing-1000"): "listing",
    ("block-sum-1000000", "block-sum"): "block sum",
}

# The most that a ratio may be.
AIMS = {
    ("even-cut", "call"): 1.2,
    ("put-hand-out", "call"): 1.2,
    ("put-hand-out", "inlined"): 4,
    ("put-hand-out", "sc_fix_fast"): 1 / 20,
    ("bank", "call"): 1.2,
    ("import-plain", "call"): 1.2,
    ("import-half", "call"): 1.2,
    ("text-read", "call"): 1.2,
    ("read", "call"): 2,
    ("read-2", "call"): 2,
    ("reading", "call"): 1.2,
    ("block-sum", "call"): 1.2,
    ("block-sum-1000000", "call"): 1.2,
    ("listing", "call"): 1,
    ("listing-little", "call"): 1,
    ("listing-2", "call"): 1,
    ("program", "call"): 1,
}
GROWTH_AIM = 1.1


def rated(ratio, aim=None):
    """The ratio as text, with its aim where it has one."""
    if aim is None:
        return f"{ratio:.2f}"
    return f"{ratio:.2f} (aim {aim:g}{' MISSED' if ratio > aim else ''})"


def compared(costs, row, peer):
    if (row, peer) in costs:
        return rated(costs[row, "library"] / costs[row, peer], AIMS.get((row, peer)))
    return "not installed" if row == "put-hand-out" and peer in PACKAGES else ""


def growth(costs, many, few, peer):
    ratio = costs[many, peer] / costs[few, peer]
    return rated(ratio, GROWTH_AIM if peer == "library" else None)


def show(head, rows):
    widths = [max(map(len, column)) for column in zip(head, *rows)]
    for row in [head, ["-" * width for width in widths], *rows]:
        print("| " + " | ".join(map(str.ljust, row, widths)) + " |")


def main():
    shown = sys.argv[1]
    costs = {}
    for line in sys.stdin:
        row, peer, pieces, cost = line.split()
        costs[row, peer] = int(cost) / int(pieces)
    peers = PEERS | LOOP | PACKAGES
    counted = shown == "instructions"
    print(f"Measured: {shown}. Each ratio is library / peer: under 1 the library is ahead.\n")
    # A count is the same everywhere; a time says nothing but beside another of the same run.
    rows = [
        [name, *([f"{costs[row, 'library']:.1f}"] if counted else []), *(compared(costs, row, peer) for peer in peers)]
        for row, name in ROWS.items()
    ]
    show(["operation", *(["library, instructions a word or record"] if counted else []), *peers.values()], rows)
    print(
        f"\nGrowth: {shown} of a record among 8,000 / among 1,000, of a block sum among 1,000,000 / among 8,000. "
        "1 is linear.\n"
    )
    growing = {"library": "library"} | PEERS
    rows = [[name, *(growth(costs, *pair, peer) for peer in growing)] for pair, name in GROWING.items()]
    show(["operation", *growing.values()], rows)


if __name__ == "__main__":
    main()
