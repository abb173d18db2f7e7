#!/usr/bin/env python3
"""Brings the names of this repository's own definitions and lemmas to one spelling, once, after the kit's own script.

Run at the top of a checkout in which the kit's port.py has just run.

- A name of a definition, a lemma or a record's field in which dashes join the words is spelled with underscores
  (`cell-width` becomes `cell_width`), or in camel case if it names a type (`Nests-right` becomes `NestsRight`).
- The names of steps and goals that answers cite follow the source, whose names keep their underscores
  (`c.u64-at` becomes `c.u64_at`), and the words that the check makes have underscores (`in-ok` becomes `in_ok`).
- The crate `bytes`, whose name a library of the kit has, is called `big_endian`.

Functions of src/, strings, inputs and outputs keep their names: in a .rt file only what is no comment and no string
is turned. The script stops where two names would fall together.
"""
import re
import subprocess
import sys
from pathlib import Path

MADE = ["in_ok", "in_err", "in_default", "in_continue", "in_break", "overflow_add", "overflow_sub", "overflow_mul", "overflow_shl", "overflow_shr",
        "overflow_cast", "overflow_neg", "overflow_step", "slice_bounds", "offset_bounds", "nonzero_div", "nonzero_rem",
        "invariant_of", "shape_of", "type_inv", "from_residual", "into_iter"]
CRATE, CRATE_NEW = "bytes", "big_endian"
NAME = r"[A-Za-zℕ◌][\w'ℕ◌*-]*"
TOKEN = re.compile(r"(?<![\w'◌-])[A-Za-z][\w']*(?:-[\w'*]+)+(?![\w'◌-])")
HEAD = re.compile(r"^\s*(?:(?:abbrev|unfoldable)\s+)?(?:pub\s+)?(?:(record|data)\s+)?(" + NAME + r")\s*(?=[:({])")


def own_files():
    listed = subprocess.run(["git", "ls-files", "--cached", "--others", "--exclude-standard", "crates"],
                            capture_output=True, text=True, check=True).stdout.split("\n")
    return [Path(name) for name in listed if name and Path(name).is_file()]


def spelled(name):
    if name[0].isupper():
        return "".join(word[0].upper() + word[1:] for word in name.split("-"))
    return name.replace("-", "_")


def definitions(files):
    """The names with dashes that specs/ and proofs/ define, goals and their answers left out."""
    found = {}
    for path in files:
        if path.suffix != ".antt":
            continue
        for line in path.read_text().split("\n"):
            head = HEAD.match(line)
            if not head or "-" not in head.group(2):
                continue
            rest = line[head.end():].lstrip(": ")
            if re.match(r"(goal|Given|Goals)\.", rest):
                continue
            found.setdefault(head.group(2), set()).add(str(path))
    return found


def record_fields(files):
    """Those of the names that are fields of a record."""
    fields = set()
    for path in files:
        depth = None
        for line in path.read_text().split("\n") if path.suffix == ".antt" else []:
            indent = len(line) - len(line.lstrip())
            if depth is not None and line.strip() and indent <= depth:
                depth = None
            head = HEAD.match(line)
            if depth is not None and head:
                fields.add(head.group(2))
            if head and head.group(1) == "record":
                depth = indent
    return fields


def library_names(files):
    """The names with dashes that are imported from outside the repository."""
    crates = {path.parts[1] for path in files}
    names = set()
    for path in files:
        for line in re.findall(r"^\s*(?:ghost )?use ([^;\n]*)", path.read_text(errors="ignore"), re.M):
            where = re.match(r"Rattle\.(\w+)\.", line)
            if where and where.group(1) in crates:
                continue
            names.update(re.findall(NAME, line))
    return {name for name in names if "-" in name}


def source_names(files):
    """The names of the sources in which underscores join the words, longest first, and the words that the check makes."""
    found = set(MADE)
    for path in files:
        if path.suffix == ".rt":
            found.update(re.findall(r"\b[a-z][a-z0-9]*(?:_[a-z0-9]+)+\b", path.read_text()))
    return sorted(found, key=lambda name: (-len(name), name))


def same_names(names, words):
    """Pairs of old names that would have one new name, and new names that a definition has already."""
    olds = {}
    for name, new in names.items():
        olds.setdefault(new, []).append(name)
    return [sorted(pair) for pair in olds.values() if len(pair) > 1] + [[new] for new in olds if new in words]


def turned_code(text, turn):
    """A .rt file, with `turn` applied outside comments and strings."""
    parts = re.split(r"(//[^\n]*|b?\"(?:\\.|[^\"\\])*\")", text)
    return "".join(part if i % 2 else turn(part) for i, part in enumerate(parts))


def main():
    files = own_files()
    found = definitions(files)
    library = library_names(files)
    kept = sorted(set(found) & library)
    names = {name: spelled(name) for name in found if name not in library}
    words = set()
    for path in files:
        if path.suffix in (".antt", ".rt"):
            words.update(re.findall(r"[A-Za-z][\w']*", path.read_text()))
    together = sorted(name for name in names if names[name] in words)
    defined = set()
    for path in files:
        if path.suffix == ".antt":
            defined.update(head.group(2) for head in map(HEAD.match, path.read_text().split("\n")) if head)
    if same_names(names, defined):
        sys.exit(f"these names would fall together: {same_names(names, defined)}")
    if "--list" in sys.argv:
        print("kept, since a library has the name:", kept)
        print("a word of the same new spelling stands already:", together)
        for name in sorted(names):
            print(name, names[name])
        return

    fields = record_fields(files)

    def turn(text):
        def name(m):
            # after a dot stands a field or a step of the code, whose name the check makes
            step = m.start() > 0 and text[m.start() - 1] == "." and m.group(0) not in fields
            return m.group(0) if step else names.get(m.group(0), m.group(0))
        text = TOKEN.sub(name, text)
        text = re.sub(r"\bRattle\." + CRATE + r"\.", "Rattle." + CRATE_NEW + ".", text)
        return text

    sources = source_names(files)
    dashed = re.compile(r"(?<![^-])(" + "|".join(name.replace("_", "-") for name in sources) + r")(?![^-])")

    def labels(text):
        def label(m):
            name = m.group(0)
            step = m.start() > 0 and text[m.start() - 1] == "."
            if name in library and not step:
                return name
            return dashed.sub(lambda part: part.group(1).replace("-", "_"), name)
        return re.sub(r"(?<![\w'◌-])[A-Za-z][\w']*(?:-[\w']+)+(?![\w'◌-])", label, text)

    for path in files:
        if path.suffix == ".antt":
            text = turn(path.read_text())
            if path.name in ("Answers.antt", "Invariants.antt"):
                text = labels(text)
            path.write_text(text)
        elif path.suffix == ".rt":
            def code(part):
                part = re.sub(r"\buse " + CRATE + r"::", "use " + CRATE_NEW + "::", part)
                return turn(part)
            path.write_text(turned_code(path.read_text(), code))
    listing = Path("crates.txt")
    listing.write_text("\n".join(
        line if line.startswith("#") else re.sub(r"\b" + CRATE + r"\b", CRATE_NEW, line)
        for line in listing.read_text().split("\n")))
    subprocess.run(["git", "mv", "crates/" + CRATE, "crates/" + CRATE_NEW], check=True)


main()
