"""What a theorem, a must-fail edit or a program mentions; .ci/rules holds every citation to it."""
import re
from collections import defaultdict, namedtuple
from pathlib import Path

SIGNATURE = re.compile(r"(?:(?:abbrev|unfoldable|pub) )*([^\s:(){}=]+(?: [^\s:(){}=]+)*) :\s")
BLOCK = re.compile(r"(?:pub )?(data|record) (\S+)")
BRINGS = re.compile(r"(?:pub )?use Rattle\.(\w+)\.(?:specs|proofs)\.")
OF_A_FUNCTION = ("Answers.antt", "Invariants.antt", "Proof.antt")  # the proofs that tie a function to its meaning
# Names that a text binds itself, and so mentions nothing by: of a parameter, of a field or a `let`, of a `λ`.
BOUND = re.compile(r"[({]([^(){}:]+) : |([^\s(){};]+) =|λ ([^.(]+)\.")

# `defines`: whether its clauses are a meaning, and not a proof; `clauses`: the words left and right of each `=`.
Declared = namedtuple("Declared", "statement defines clauses")


def plain(name):
    """One form for names that stand for each other: `cut`, `cut_of` and the lemma `cut_lem`."""
    return re.sub(r"[-_']", "", re.sub(r"_(?:of|lem)$", "", name)).lower()


def words(text):
    """What an antt text names. A field, as in `w.format` and `(f w).format`, is no name; but what stands before it is, and
    what a module has, as `write.Post`."""
    bound = {name for m in BOUND.finditer(text) for group in m.groups("") for name in group.split()}
    found = {word for word in re.findall(r"[^\s(){};,]+", text) if word.split(".")[0] not in bound | {""}}
    return found | {word.split(".")[0] for word in found}


def lines_of(path):
    """Each signature, clause or other line with what is indented below it, and the sections that it stands in."""
    sections, lines = [], []
    for line in re.sub(r"(?<![^\s(){};,])--.*", "", path.read_text()).split("\n"):
        if line.strip():
            depth = (len(line) - len(line.lstrip())) // 2
            del sections[depth:]
            if depth > len(sections):
                lines[-1][1] += "\n" + line
            else:
                lines.append([" ".join(sections), line.strip()])
                if line.strip().startswith("module "):
                    sections.append(line.strip())
    return lines


class File:
    """An antt file: what it declares, and what it brings from the crates; of that, which names are modules."""
    def __init__(self, path):
        self.path, self.crate = path, path.parts[1]
        self.declared, self.constructors, self.aliases, self.brings, self.modules = {}, set(), {}, [], set()
        now = None
        for section, text in lines_of(path):
            if m := BRINGS.match(text):
                brought = text[m.end() :]
                self.aliases |= {new: old for old, new in re.findall(r"([^\s{},]+) as ([^\s{},]+)", brought)}
                self.brings.append((m[1], set(re.split(r"[.{},\s]+", brought))))
                self.modules |= set() if "{" in brought else {brought.split()[-1].split(".")[-1]}
            elif m := BLOCK.match(text):
                parts = re.findall(r"^ +(?:pub )?([^:(){}]+) : (.*)", text, re.M)
                self.constructors |= {name for names, _ in parts for name in names.split() if m[1] == "data"}
                self.declared[m[2]] = now = Declared(text, True, [(set(), words(" ".join(kind for _, kind in parts)))])
            elif m := SIGNATURE.match(text + "\n"):
                now = Declared(section + " " + text, text.startswith(("abbrev", "unfoldable")), [])
                self.declared |= dict.fromkeys(m[1].split(), now)
            elif now and not text.startswith("unfolding "):
                left, _, right = text.partition(" =")
                now.clauses.append((set(re.findall(r"[^\s(){}]+", left)), words(right)))

    def reached(self, name):
        """From a statement, all in the file that it leads to. A clause counts where its constructors do, so a computed
        table leads only to what it has rows for."""
        found, size = words(self.declared[name].statement), 0
        while size != len(found):
            size = len(found)
            for other in found & self.declared.keys():
                if other != name or self.declared[name].defines:
                    for left, right in self.declared[other].clauses:
                        if left & self.constructors <= found:
                            found |= right - left
        return found

    def meant(self, word):
        """The crates and names that a word of this file stands for: `write.Post` for `write` too."""
        first, *more = word.split(".")
        if first in self.declared or first in self.constructors:
            return {(self.crate, plain(first))}
        names = [first, *(more if first in self.modules else []), *self.aliases.get(first, "").split(".")]
        return {(crate, plain(name)) for crate, brought in self.brings if first in brought for name in names}


def of_edit(path):
    """The lines that it changes, those that it puts in their place, and the functions or constants that they stand in."""
    found = set()
    for key, text in re.findall(r"^(file|old|new): (.*)", path.read_text(), re.M):
        if key == "file":
            source = (path.parent.parent / text).read_text()
            continue
        if key == "old":
            before, _, after = source.partition(text)
            *_, place = [None, *re.finditer(r"\b(?:fn|const) (\w+)", before)]
            if place and before.count("{", place.start()) > before.count("}", place.start()):
                found.add(place[1])
            text = before.rpartition("\n")[2] + text + after.partition("\n")[0]
        found |= set(re.findall(r"\w+", text))
    return {(None, plain(name)) for name in found}


def of_program(path):
    return {(None, plain(name)) for name in re.findall(r"\w+", re.sub(r"//.*", "", path.read_text()))}


class Sources:
    def __init__(self):
        # The proofs that tie a function to its meaning are cited nowhere.
        paths = sorted([*Path("crates").glob("*/specs/**/*.antt"), *Path("crates").glob("*/proofs/**/*.antt")])
        paths = [path for path in paths if path.name not in OF_A_FUNCTION]
        self.files = [File(path) for path in paths]
        self.homes = defaultdict(set)  # of each definition and function, the crates that have it
        for file in (file for file in self.files if file.path.parts[2] == "specs"):
            for name in file.declared.keys() | file.constructors:
                self.homes[name].add(file.crate)
        for path in (path for path in Path("crates").glob("*/src/**/*.rt") if path.name != "main.rt"):
            for name in re.findall(r"\b(?:fn|struct|enum|const) (\w+)", path.read_text()):
                self.homes[name].add(path.parts[1])

    def of_theorem(self, file, name):
        """What it leads to in its own file; and one level down, the definitions that are brought from elsewhere."""
        found = file.reached(name)
        below = {(far, one) for word in found for far, one in self.brought(file, word)}
        deeper = (far.meant(word) for far, one in below for left, right in far.declared[one].clauses for word in right - left)
        return set().union(*map(file.meant, found), *deeper)

    def brought(self, file, word):
        first, last = word.split(".")[0], file.aliases.get(word, word).split(".")[-1]
        for far in self.files:
            for crate, named in file.brings:
                if far.crate == crate and last in far.declared and {first, far.path.stem} <= named:
                    yield far, last

    def has_law(self, name, crates):
        """Is it declared in proofs/ of one of these crates?"""
        return any(name in file.declared for file in self.files if file.path.parts[2] == "proofs" and file.crate in crates)

    def mentioned(self, kind, name, crates, place):
        """What those mention that have the name: in these crates, or else anywhere."""
        def near(paths):
            return [path for path in paths if path.parts[1] in crates] or paths

        if kind == "program":
            return [of_program(path) for path in Path("crates").glob(f"{name}/src/main.rt")]
        if kind == "edit":
            return [of_edit(path) for path in near(list(Path("crates").glob(f"*/must-fail/{name}.edit")))]
        files = {file.path: file for file in self.files if name in file.declared and str(file.path).endswith(place)}
        return [self.of_theorem(files[path], name) for path in near([path for path in files if path.parts[2] == "proofs"])]
