"""Tries ./list in copies of the tree, for .ci/edges: not built, built, stale, and not its user's own. A script stands
for `rt`, so that nothing is proved there: it notes what it is asked and copies the program that is proved already."""
import os
import platform
import shutil
import subprocess
from pathlib import Path

from worlds import NOBODY, PATIENCE, run

RT = """#!/bin/sh
[ "$1" != doc ] || exec "$REAL_RT" doc
crate=${PWD##*/}
echo "$* $crate" >>"$ASKED"
echo "the prover's own words" >&2
sleep "${SLOW:-0}"
[ "$crate" != "${WRONG:-}" ] || exit 1
mkdir -p out/rlib || exit 2
made() {
    cat src/*
    [ "$1" = lib ] || sha256sum <out/listing # as rt does, which sees whether the program is the one that it made
}
stamp=out/rlib/stamp
[ "$1" = lib ] || stamp=out/listing.stamp
[ "$(cat $stamp 2>&1)" = "$(made "$1" 2>&1)" ] || {
    [ "$1" = lib ] || cp "$PROGRAM" out/listing
    made "$1" >$stamp
}
[ "$1" = lib ] || echo "the program's own words"
"""


def lines_of(file):
    return file.read_text().splitlines() if file.exists() else []


def below(root, name="listing"):
    """The crates that a crate stands on, lowest first, and itself."""
    lines = [line.partition("#")[0].partition(":") for line in (root / "crates.txt").read_text().splitlines()]
    lines = {name.split()[0]: needed for name, colon, needed in lines if colon}
    found = []
    for needed in lines[name].split():
        if needed in lines:
            found += below(root, needed)
    return list(dict.fromkeys([*found, name]))


class Tree:
    """A copy with all that ./list needs, and nothing built."""

    def __init__(self, place, root, name):
        self.path, self.root, self.asked = place / name, root, place / f"{name}.asked"
        self.crates = below(root)
        self.everything = [f"{'run --cpu x86-64' if crate == 'listing' else 'lib'} {crate}" for crate in self.crates]
        self.out = self.path / "crates/listing/out"
        self.path.mkdir()
        for part in ("list", "crates.txt"):
            shutil.copy2(root / part, self.path / part)
        for crate in self.crates:
            shutil.copytree(root / "crates" / crate, self.path / "crates" / crate, ignore=shutil.ignore_patterns("out"))
        self.env = {
            "PATH": f"{place / 'bin'}:{os.environ['PATH']}",
            "REAL_RT": shutil.which("rt"),
            "PROGRAM": str(root / "crates/listing/out/listing"),
            "ASKED": str(self.asked),
        }

    def list(self, *words, user=(), **env):
        return run([*user, str(self.path / "list"), *map(str, words)], cwd="/", **{**self.env, **env})

    def questions(self):
        """What the prover was asked since the last time."""
        asked = lines_of(self.asked)
        self.asked.unlink(missing_ok=True)
        return asked

    def lines(self):
        crates = list(enumerate(self.crates, 1))
        return "".join(f"proving {crate}, {number} of {len(crates)}\n" for number, crate in crates)

    def path_without_rt(self):
        return ":".join(folder for folder in os.environ["PATH"].split(":") if not (Path(folder) / "rt").exists())

    def lock(self):
        """Another's tree is root's, or at least one that nobody can write."""
        subprocess.run(["chmod", "-R", "a-w,a+rX", self.path], check=True)

    def unlock(self):
        subprocess.run(["chmod", "-R", "u+w", self.path], check=True)


def try_first(tree, good, text, hold):
    """What is wrong with a file is said first; then all is proved once."""
    secret = tree.path / "secret.rnb"
    shutil.copy(good, secret)
    secret.chmod(0)
    for name, user, says in (("missing", (), "no such file"), (secret, NOBODY, "it may not be read")):
        ended = tree.list(name, user=user)
        said = ended == (b"", f"list: {name}: {says}\n", 2) and not tree.questions()
        hold(f"{says}: said, and nothing is proved", said, ended)
    ended = tree.list(good)
    hold("the first listing proves all, a line for each crate", ended == (text, tree.lines(), 0), ended)
    asked = tree.questions()
    hold("the crates are proved in order", asked == tree.everything, asked)
    kept = lines_of(tree.out / "list.log")
    hold("the prover's own words are in the log", kept == ["the prover's own words"] * len(tree.crates), kept)
    ended = tree.list(good)
    hold("the next listing proves nothing and says nothing", ended == (text, "", 0) and not tree.questions(), ended)
    ended = tree.list(good, PATH=tree.path_without_rt())
    if platform.machine() == "x86_64":
        hold("nor does it need the toolchain", ended == (text, "", 0), ended)
    else:
        # The emulator runs it over the toolchain's libraries.
        said = ended[0] == b"" and ended[1].startswith("list: there is no emulator: ") and ended[2] == 2
        hold("without the toolchain there is no emulator, which it says", said, ended)
    copy = shutil.copytree(tree.path, tree.path.with_name("copied tree"), ignore=shutil.ignore_patterns("secret*"))
    ended = run([str(copy / "list"), str(good)], cwd="/", **tree.env)
    hold("nor does a copy of the tree", ended == (text, "", 0) and not tree.questions(), ended)


def try_stale(tree, good, text, hold):
    """A program that was not proved from the sources as they are is not run."""
    program, source = tree.out / "listing", tree.path / "crates/words/src/lib.rt"

    def replace():
        program.write_text("#!/bin/sh\necho listed >&2\n")

    def change():
        source.write_text(source.read_text() + "\n")
        os.utime(source, (1e9, 1e9))  # older than the program, as a file that was copied with its time

    for what, stale in (
        ("a changed source", change),
        ("a changed list of crates", lambda: (tree.path / "crates.txt").open("a").write("# more\n")),
        ("another program", replace),
        ("no program", lambda: program.unlink(missing_ok=True)),
    ):
        stale()
        ended = tree.list(good)
        asked = tree.questions()
        again = (ended.out, ended.status, asked) == (text, 0, tree.everything)
        hold(f"{what}: all is asked again", again, (ended, asked))


def try_failing(tree, good, hold):
    ended = tree.list(good, WRONG="words")
    named = f"list: words is not proved: {tree.out}/list.log has what the prover said\n"
    lines = "".join(tree.lines().splitlines(True)[:2])
    hold("a crate that is not proved: the log is named", ended == (b"", lines + named, 2), ended)
    hold("and no other is tried", tree.questions() == tree.everything[:2], "")
    for out in tree.path.glob("crates/*/out"):
        shutil.rmtree(out)
    ended = tree.list(good, PATH=tree.path_without_rt())
    says = "list: the listing program has to be proved first, and rt, the Rattle toolchain, is not on the path\n"
    hold("no toolchain, and nothing built", ended == (b"", says, 2), ended)


def try_foreign(tree, good, text, hold):
    """A tree that this user cannot write, not built, built by ./list, built by rt alone, and stale."""
    says = "list: the listing program has to be proved first, and {} cannot be written\n"
    lowest = tree.path / "crates" / tree.crates[0]
    tree.lock()
    ended = tree.list(good, user=NOBODY)
    hold("another's tree, not built", ended == (b"", says.format(lowest), 2), ended)
    tree.unlock()
    tree.list(good)
    for what in ("built by ./list", "built by rt"):
        tree.lock()
        tree.questions()
        ended = tree.list(good, user=NOBODY)
        hold(f"another's tree, {what}", ended == (text, "", 0) and not tree.questions(), ended)
        tree.unlock()
        (tree.out / "listing.proved").unlink(missing_ok=True)
    os.utime(tree.out / "listing", (1e9, 1e9))
    tree.lock()
    ended = tree.list(good, user=NOBODY)
    hold("another's tree, stale", ended == (b"", says.format(lowest / "out"), 2), ended)
    tree.unlock()


def try_at_once(tree, good, text, hold):
    args = ["timeout", str(PATIENCE), tree.path / "list", good]
    env = {**os.environ, **tree.env, "SLOW": "0.2"}
    started = [subprocess.Popen(args, env=env, stdout=subprocess.PIPE, stderr=subprocess.PIPE) for _ in range(3)]
    outs = [process.communicate()[0] for process in started]
    asked = tree.questions()
    hold("three at once prove each crate once", (outs, asked) == ([text] * 3, tree.everything), (outs, asked))


def try_copy(place, root, emulator, good, text, hold):
    """The program alone, in another folder, for another user."""
    copy = place / "copied program"
    shutil.copy(root / "crates/listing/out/listing", copy)
    ended = run([*NOBODY, *map(str, emulator), str(copy)], good, cwd="/")
    hold("a copy of the program", ended == (text, "", 0), ended)


def try_all(place, root, emulator, hold):
    good = root / "samples/rn-document.rnb"
    kept = place / "good.rnb"  # where nobody can read it
    shutil.copy(good, kept)
    text = good.with_suffix(".txt").read_bytes()
    (place / "bin").mkdir()
    (place / "bin/rt").write_text(RT)
    (place / "bin/rt").chmod(0o755)
    try_copy(place, root, emulator, kept, text, hold)
    own, failing, foreign, busy = (Tree(place, root, name) for name in ("own tree", "failing", "foreign", "busy"))
    try_first(own, kept, text, hold)
    try_stale(own, kept, text, hold)
    try_failing(failing, kept, hold)
    try_foreign(foreign, kept, text, hold)
    try_at_once(busy, kept, text, hold)
