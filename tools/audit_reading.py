"""Reads the repository for the audit: public functions, definitions, and the page of contracts."""
import collections
import pathlib
import re
import subprocess

Function = collections.namedtuple("Function", "crate file name takes lent result clauses")


def read(path):
    return path.read_text(encoding="utf-8") if path.is_file() else ""


def without_comments(text, mark):
    """Empties strings too, since they may hold braces and comment marks."""
    string = r"""(b'(?:\\.|[^\\])'|"(?:\\.|[^"\\])*")"""
    comment = mark + r"[^\n]*|\{-[\s\S]*?-\}"
    return re.sub(f"{string}|{comment}", lambda found: '""' if found[1] else "", text)


def names(text):
    return set(re.split(r"[\s(){}\[\];,.⌜⌝«»]+", text))


def quoted(text):
    return set(re.findall(r"`([^`\n]+)`", text))


def tracked_texts(root):
    """Leaves out binary files, and the samples, which are bad on purpose."""
    listed = subprocess.check_output(["git", "-C", root, "ls-files", "-z"]).decode()
    for name in filter(None, listed.split("\0")):
        content = (root / name).read_bytes() if (root / name).is_file() else b"\0"
        if b"\0" not in content and name != "tools/audit_samples.py":
            yield pathlib.Path(name), content.decode("utf-8", "replace")


def crates_of(root):
    return re.findall(r"^(\w+)(?: staticlib)?\s*:", read(root / "crates.txt"), re.M)


def is_exporting(root, crate):
    """Whether the crate is a static library, whose functions C calls and no other crate."""
    return bool(re.search(rf"^{crate} staticlib\s*:", read(root / "crates.txt"), re.M))


def is_library(root, crate):
    is_program = (root / "crates" / crate / "src/main.rt").exists()
    return not is_program and not is_exporting(root, crate)


def clauses_at(text, at):
    """Gives the kind, name and term of each clause from `at` on, up to the function's body."""
    found = []
    while clause := re.compile(r"\s*([a-z]+\*?)\s*(\w*)\s*\{").match(text, at):
        depth, at = 1, clause.end()
        while depth:
            depth += (text[at] == "{") - (text[at] == "}")
            at += 1
        found.append((clause[1], clause[2], text[clause.end():at - 1]))
    return found


def public_functions(root, crate):
    """Gives none of a program or of a static library, whose functions no other crate calls."""
    return functions_of(root, crate) if is_library(root, crate) else []


def module_of(source, file):
    return [part for part in file.relative_to(source).with_suffix("").parts if part != "lib"]


def homes_of(source):
    """Gives the module in which each type of a crate is declared: its methods go by that, wherever they stand."""
    return {name: module_of(source, file)
            for file in sorted(source.rglob("*.rt"))
            for name in re.findall(r"^(?:pub(?:\(crate\))? )?(?:struct|enum) (\w+)",
                                   without_comments(read(file), "//"), re.M)}


def functions_of(root, crate):
    """Gives the functions of a crate that are marked as public."""
    source = root / "crates" / crate / "src"
    homes = homes_of(source)
    header = r'^( *)pub (?:extern "" )?fn (\w+)([^{]*?)(?=\s*\{|\s+(?:ghost|requires|ensures)\b)'
    for file in sorted(source.rglob("*.rt")):
        text = without_comments(read(file), "//")
        module = module_of(source, file)
        for found in re.finditer(header, text, re.M):
            types = re.findall(r"^impl\b(?:<.*?>)? (\w+)", text[:found.start()], re.M)
            owner = types[-1:] if found[1] else []
            takes, _, result = found[3].partition("->")
            home = homes.get(owner[0], module) if owner else module
            name = "::".join([crate, *home, *owner, found[2]])
            lent = len(re.findall(r"&(?:'\w+ )?mut\b", takes))
            clauses = clauses_at(text, found.end())
            takes = "".join(takes.split()).replace(",)", ")")
            yield Function(crate, file.relative_to(root), name, takes, lent, result.strip(),
                           clauses)


def public_definitions(root, crate):
    files = (root / "crates" / crate / "specs").rglob("*.antt")
    text = "\n".join(without_comments(read(file), "--") for file in files)
    return set(re.findall(r"^(?:\w+ )*pub (?:data |record )?(?!use |mod )(\S+)", text, re.M))


def entries_of(page):
    """Gives {function: {bullet: text}}."""
    sections = re.findall(r"^### `([\w:]+)`\n(.*?)(?=^#|\Z)", page, re.M | re.S)
    bullets = re.compile(r"^- ([A-Z][a-z ]+): (.*?)(?=^- |^$|\Z)", re.M | re.S)
    return {name: dict(bullets.findall(body)) for name, body in sections}


def exceptions_of(page):
    """Gives {(function, rule): reason}."""
    table = page.partition("\n## Exceptions\n")[2].partition("\n#")[0]
    rows = re.findall(r"^\| *`([\w:]+)` *\| *(\w+) *\| *(.*?) *\|$", table, re.M)
    return {(name, rule): reason for name, rule, reason in rows}
