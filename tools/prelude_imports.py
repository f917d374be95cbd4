#!/usr/bin/env python3
"""In the specs/ of the crates named: each name that Rattle.std.specs.Prelude has is imported from there, and not from
Rattle.integers.specs.Names, since `rt ci` refuses an operator that comes by another path. Only `use` lines change. It was
run once, after respell.py.

usage: prelude_imports.py CRATE..   at the top of the repository"""
import re
import subprocess
import sys
from pathlib import Path

WIDEST = 98
OURS = re.compile(r"^use Rattle\.integers\.specs\.Names\.\{([^}]*)\}\n", re.M)


def prelude():
    """The names of the library's Prelude."""
    guide = subprocess.run(["rt", "doc"], capture_output=True, check=True, text=True).stdout.strip()
    text = (Path(guide).parent / "rattle/std/specs/Prelude.antt").read_text()
    return {name.strip() for found in re.findall(r"^pub use .*\.\{(.*)\}\s*$", text, re.M) for name in found.split(",")}


def imports(path, names):
    """Lines that bring these names from this module, none too wide."""
    rows = []
    for name in names:
        if rows and len(f"use {path}.{{" + ", ".join([*rows[-1], name]) + "}") <= WIDEST:
            rows[-1].append(name)
        else:
            rows.append([name])
    return "".join(f"use {path}.{{{', '.join(row)}}}\n" for row in rows)


def turn(file, library):
    text = file.read_text()
    names = [name.strip() for found in OURS.findall(text) for name in found.split(",")]
    if not names:
        return
    theirs = imports("Rattle.std.specs.Prelude", [name for name in names if name in library])
    ours = imports("Rattle.integers.specs.Names", [name for name in names if name not in library])
    file.write_text(OURS.sub("", OURS.sub(lambda _: "\0\n", text, count=1)).replace("\0\n", theirs + ours))
    print("changed", file)


def main(*crates):
    library = prelude()
    for crate in crates:
        for file in sorted(Path("crates", crate).glob("specs/**/*.antt")):
            turn(file, library)


if __name__ == "__main__":
    main(*sys.argv[1:])
