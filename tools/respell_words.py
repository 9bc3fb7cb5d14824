#!/usr/bin/env python3
"""Brings the library's words in definitions and clauses to those that today's contracts are written with.

    tools/respell_words.py [FOLDER]     respells every crate below FOLDER, or below the repository

It is run once, after tools/respell.py. Each pair is one thing under two names: `eqb` is `nat_eq`, and `get_or xs i 0`
of numbers is `slice_index xs i`. Proofs keep the words that lemmas are stated with.
"""
import pathlib
import re
import sys

WORDS = {"eqb": "nat_eq", "ltb": "nat_lt", "leb": "nat_le", "get_or": "slice_index_or", "set": "slice_set"}
OURS = re.compile(r"(?<![\w.'-])(" + "|".join(WORDS) + r")(?![\w'-])")
IMPORT = re.compile(r"((?:ghost )?use Rattle\.std\.specs\.Prelude)\.\{([^}]*)\}")


def atom_end(text, start):
    """Where the argument that begins at start ends: a name with its fields, a number or a bracket."""
    end = start
    if text[start] == "(":
        depth = 0
        for end in range(start, len(text)):
            depth += {"(": 1, ")": -1}.get(text[end], 0)
            if not depth:
                break
        end += 1
    return re.compile(r"[\w.'-]*").match(text, end).end()


def indexed(text):
    """`get_or xs i 0` as `slice_index xs i`."""
    found = re.search(r"(?<![\w.'-])get_or ", text)
    while found:
        first = atom_end(text, found.end())
        second = atom_end(text, first + 1)
        word = "get_or"
        if re.match(r" 0(?![\w.])", text[second:]):
            text = text[:second] + text[second + 2:]
            word = "slice_index"
        text = text[:found.start()] + word + text[found.start() + len("get_or"):]
        found = re.compile(r"(?<![\w.'-])get_or ").search(text, found.start() + len(word))
    return text


def turned(text):
    imports = IMPORT.search(text)
    words = {w.strip() for w in imports.group(2).split(",")} if imports else set()
    if "set" not in words:
        text = re.sub(r"(?<![\w.'-])set(?![\w'-])", "\0", text)
    text = OURS.sub(lambda m: WORDS[m.group(1)], indexed(text)).replace("\0", "set")
    # In a comment it is an English word.
    text = re.sub(r"(?m)^(\s*(?:--|//).*)\bslice_set\b", r"\1set", text)
    return IMPORT.sub(lambda m: f"{m.group(1)}.{{{', '.join(imported(m.group(2), text))}}}", text)


def imported(names, text):
    """The names of an import, each once, and no word that is gone from the file."""
    body = IMPORT.sub("", text)
    names = list(dict.fromkeys(n.strip() for n in names.split(",")))
    if re.search(r"\bslice_index\b", body):
        names.append("slice_index")
    gone = {"slice_index_or"} - set(re.findall(r"\bslice_index_or\b", body))
    return [n for n in dict.fromkeys(names) if n not in gone]


def main(argv):
    home = pathlib.Path(__file__).resolve().parent.parent
    root = pathlib.Path(argv[0]) if argv else home
    for path in [*root.glob("crates/*/specs/*.antt"), *root.glob("crates/*/src/**/*.rt")]:
        text = path.read_text()
        new = turned(text)
        if new != text:
            path.write_text(new)


if __name__ == "__main__":
    main(sys.argv[1:])
