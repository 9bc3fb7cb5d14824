#!/usr/bin/env python3
"""Brings the repository's own definitions, lemmas and fields to the spelling of today's Rattle.

    tools/respell.py [FOLDER]     respells every crate below FOLDER, or below the repository
    tools/respell.py --list       prints the names that would change, old and new

It is run once, after the kit's own port.py. Words are in snake case, types and modules in camel case. A dash
stays in a lemma's name where it joins two names, and becomes an underscore before and behind a plain word.
Functions of src/, strings, and what proofs of one function declare for themselves keep their names.
"""
import pathlib
import re
import sys

TOKEN = re.compile(r"[A-Za-z_◌₀-₉²↔→≡≤<ℕ][A-Za-z0-9_'◌₀-₉²↔→≡≢≤<ℕ-]*")
DECLARED = re.compile(
    r"^(?P<gap>\s*)(?:(?:unfoldable|abbrev|pub|record|data|ruleset)\s+)*(?P<name>[^\s:(){}=,;]+)(?:\s*:(?:\s|$)|\s*$)")
BLOCK = re.compile(r"^(?:pub\s+)?(record|data)\s")
MOTHER = re.compile(r"^use (?P<module>[\w.·'-]+)\.\{(?P<names>[^}]*)\}")

# Names of laws in the kit's libraries, which a dash may join.
LIBRARY = set("""
    le lt ge gt eq ne add sub mul div mod pow min max append length take drop set get_or get head tail nil cons
    suc zero reverse map all any not and or true false nat_eq to_bits of_bits is_nan
""".split())

# Where the plain spelling is another thing's name already.
OTHERWISE = {"was-noted": "was_noted_then", "refusal-number": "refusal_number_told"}


def snake(word):
    if not word or not word[0].islower():
        return word
    return re.sub(r"(?<=[a-z0-9₀-₉])([A-Z])", lambda m: "_" + m.group(1).lower(), word)


def antt_files(root):
    for crate in sorted((root / "crates").iterdir()):
        for part in ("specs", "proofs"):
            yield from sorted((crate / part).rglob("*.antt"))


def is_of_function(path):
    parts = path.parts
    return len(parts) - 1 - max(i for i, p in enumerate(parts) if p in ("specs", "proofs")) > 1


def declared(path):
    """The names that a file declares, each with whether it is a lemma's."""
    record = False
    for line in path.read_text().splitlines():
        if line.lstrip().startswith("--"):
            continue
        if BLOCK.match(line):
            record = True
        elif line and not line[0].isspace():
            record = False
        m = DECLARED.match(line)
        if m:
            yield m.group("name"), not record and "proofs" in path.parts


def imported(paths):
    """The names that come from the kit's libraries."""
    names = set()
    for path in paths:
        for line in path.read_text().splitlines():
            m = MOTHER.match(line.removeprefix("ghost ").strip())
            if m and not m.group("module").startswith(OWN):
                names |= {n.strip().split(" as ")[0] for n in m.group("names").split(",")}
    return names


def respelled(name, lemma, known):
    if name in OTHERWISE:
        return OTHERWISE[name]
    parts = [snake(p) for p in name.split("-")]
    new = parts[0]
    for i in range(1, len(parts)):
        joins = lemma and parts[i - 1] in known and parts[i] in known
        new += ("-" if joins else "_") + parts[i]
    return new


def names_of(root):
    files = list(antt_files(root))
    theirs = imported(files + sorted(root.glob("crates/*/src/**/*.rt")))
    found = {}
    for path in files:
        for name, lemma in declared(path):
            # The goals of a function have the names that the check gives them.
            if is_of_function(path) and snake(name) == name:
                continue
            if TOKEN.fullmatch(name) and name not in theirs and not name.startswith("◌"):
                found[name] = found.get(name, True) and lemma
    defined = {name for path in files if "specs" in path.parts for name, _ in declared(path)}
    known = LIBRARY | {snake(n) for n in defined if "-" not in n and len(n) > 1}
    return {n: respelled(n, lemma, known) for n, lemma in found.items() if respelled(n, lemma, known) != n}


def turn(text, names):
    return TOKEN.sub(lambda m: names.get(m.group(0), m.group(0)), text)


def main(argv):
    global OWN
    home = pathlib.Path(__file__).resolve().parent.parent
    root = pathlib.Path(next((a for a in argv if not a.startswith("-")), home))
    OWN = tuple(f"Rattle.{p.name}." for p in (root / "crates").iterdir())
    names = names_of(root)
    if "--list" in argv:
        for old in sorted(names):
            print(old, names[old])
        return
    for path in [*antt_files(root), *sorted(root.glob("crates/*/src/**/*.rt")),
                 *sorted(root.glob("crates/*/must-fail/*.edit"))]:
        text = path.read_text()
        new = turn(text, names)
        if new != text:
            path.write_text(new)


if __name__ == "__main__":
    main(sys.argv[1:])
