#!/usr/bin/env python3
"""Brings the repository's own definitions and lemmas to the spelling of today's Rattle: words in snake case. It was run
once, after the kit's own script, at the top of the repository; it rewrites crates/ in place and prints names that fall
together. Functions, fields and constants of src/ keep their names, and so do the names that Rattle makes."""
import os
import re
import sys

NAME = r"[^\s(){}\[\];,.:@'\"`◌λ→←≡×⊎∷∙+*/%^<>=|&~$!?#\\][^\s(){}\[\];,.:@\"`◌λ→←≡×⊎∷∙+*/%^<>=|&~$!?#\\]*"
TOKEN = re.compile(NAME)
DECLARED = re.compile(r"^\s*((?:(?:pub|abbrev|unfoldable)\s+)*)([^\s:(){}]+) :(?: (.*))?$")
IMPORT = re.compile(r"^(?:ghost |pub )*use ([\w.]+)\.\{([^}]*)\}")
# Lemmas that the kit's script had turned to what is now their definition's name: a lemma of its function's name ends in _lem.
OWN = {"same_bytes", "taken_in", "given_out", "handed_out"}
LABELS = re.compile(r"^(\s*ensures )(\w+)_after( \{)")
COMMENT = re.compile(r"`([^`]*)`")


def files():
    for folder, dirs, names in os.walk("crates"):
        dirs[:] = sorted(d for d in dirs if d != "out")
        for name in sorted(names):
            if name.endswith((".antt", ".rt")):
                yield os.path.join(folder, name)


def snake(name):
    return re.sub(r"(?<=[a-z0-9])([A-Z])|(?<=[A-Z])([A-Z])(?=[a-z])", lambda m: "_" + m.group(0).lower(), name)


def is_camel(name):
    return re.match(r"[a-zμ]", name) and re.search(r"[a-z0-9][A-Z]", name)


def split(line, mark):
    """The line's own text, and its comment."""
    at = re.search(r"(?:^|\s)" + re.escape(mark), line)
    return (line[: at.start()], line[at.start() :]) if at else (line, "")


def declared(path):
    """The names with a dash that a file declares, but for answers to goals that Rattle names."""
    if not path.endswith(".antt") or re.search(r"/(Proof|Answers|Invariants)\.antt$", path):
        return
    with open(path, encoding="utf-8") as it:
        for line in it:
            m = DECLARED.match(split(line.rstrip("\n"), "--")[0])
            if m and "-" in m.group(2).strip("◌") and re.match(r"[a-z◌]", m.group(2)):
                yield m.group(2).strip("◌")


def main():
    own_crates = set(os.listdir("crates"))
    dashed = {n for f in files() for n in declared(f)}
    taken = set()
    for f in files():
        with open(f, encoding="utf-8") as it:
            text = it.read()
        taken |= {snake(n) for n in TOKEN.findall(text) if is_camel(n)}
        for line in text.split("\n"):
            m = IMPORT.match(line)
            if m and not (m.group(1).startswith("Rattle.") and m.group(1).split(".")[1] in own_crates):
                dashed -= set(re.split(r"[, ]+", m.group(2)))
            m = DECLARED.match(line)
            if m and "-" not in m.group(2):
                taken.add(m.group(2))
    fields = set()
    for f in files():
        if f.endswith(".antt"):
            inside = False
            for line in open(f, encoding="utf-8"):
                if re.match(r"\s*(pub )?(abbrev )?record ", line):
                    inside = True
                elif not line.startswith(" "):
                    inside = False
                m = inside and re.match(r"\s+pub ([a-z]\S*) :", line)
                if m:
                    fields.add(m.group(1))

    def turned(name, before):
        if is_camel(name):
            name = snake(name)
        if name in dashed_snake and (before != "." or name in fields_snake):
            name = name.replace("-", "_")
            if name in taken:
                clashes.add(name)
                name += "_lem"
        return name

    clashes = set()

    dashed_snake = {snake(n) if is_camel(n) else n for n in dashed}
    fields_snake = {snake(n) if is_camel(n) else n for n in fields}

    def turn(text, own):
        out, last = [], 0
        for m in TOKEN.finditer(text):
            before = text[m.start() - 1] if m.start() else ""
            name = m.group(0)
            out.append(text[last : m.start()])
            if own and name in OWN and before != ".":
                out.append(name + "_lem")
            else:
                out.append(turned(name, before))
            last = m.end()
        return "".join(out) + text[last:]

    for f in files():
        with open(f, encoding="utf-8") as it:
            old = it.read()
        own = f.endswith(".antt") and (f.endswith("frostuldi/proofs/Demand3.antt") or "same_bytes" in old)
        lines, ghost = [], False
        for line in old.split("\n"):
            code, comment = split(line, "//" if f.endswith(".rt") else "--")
            comment = COMMENT.sub(lambda m: "`" + turn(m.group(1), own) + "`", comment)
            if f.endswith(".rt"):
                code = LABELS.sub(r"\1\2_new\3", code)
                starts = re.match(r"\s*(pub )?(ghost use|requires|ensures|ghost )", code)
                if starts or ghost:
                    ghost = code.count("{") + (0 if starts else 1) > code.count("}") if not ghost else True
                    label = re.match(r"(\s*(?:requires|ensures)\*? \w+ \{)(.*)$", code)
                    code = label.group(1) + turn(label.group(2), own) if label else turn(code, own)
                    if ghost and code.rstrip().endswith(("}", "};")):
                        ghost = False
                    elif not code.rstrip().endswith(("}", "};")):
                        ghost = True
            else:
                code = turn(code, own)
            lines.append(code + comment)
        new = "\n".join(lines)
        if new != old:
            with open(f, "w", encoding="utf-8") as it:
                it.write(new)
    print("a lemma of its function's name, now with _lem:", *sorted(clashes))
    # what falls together: a name declared twice in one file
    for f in files():
        if not f.endswith(".antt"):
            continue
        seen = {}
        for number, line in enumerate(open(f, encoding="utf-8"), 1):
            m = DECLARED.match(split(line.rstrip("\n"), "--")[0])
            if m and not line.startswith(" "):
                if m.group(2) in seen:
                    print(f"{f}:{number}: {m.group(2)} is also on line {seen[m.group(2)]}")
                seen[m.group(2)] = number


if __name__ == "__main__":
    sys.exit(main())
