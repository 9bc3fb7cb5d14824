"""Holds pages against proofs: the reading list against what promises reach, and the printed book."""
import collections
import re

from audit_reading import crates_of, is_library, public_functions, read, without_comments

TRUST = "docs/TRUST.md"
PROMISES = "proofs/Demands.antt"
FORMAT = "docs/FORMAT.md"
SAMPLE = "crates/rules/proofs/Sample.antt"

Module = collections.namedtuple("Module", "definitions names aliases")


def imports_of(text):
    """Gives {name: (crate, module, its name there)} and {alias: (crate, module)}."""
    line = (r"^(?:\w+ )*use Rattle\.(\w+)\.specs\.([A-Z]\w*)"
            r"(?:\.\{([^}]*)\}| as (\S+?));?$")
    found, aliases = {}, {}
    for crate, module, several, alias in re.findall(line, text, re.M):
        if alias:
            aliases[alias] = (crate, module)
        for item in filter(None, (item.strip() for item in several.split(","))):
            found[item.split()[-1]] = (crate, module, item.split()[0])
    return found, aliases


def definitions_of(text):
    """Gives {name: text}. A constructor's name leads to its type's text."""
    found, name = {}, None
    for line in text.splitlines():
        start = re.match(r"(?:(?:unfoldable|abbrev|pub|data|record) )*([^\s}]\S*)", line)
        if start and re.match(r"(?:pub )?(?:use|mod|infix\w*) ", line):
            name = None
        elif start:
            name = start[1]
        if name:
            found[name] = found.get(name, "") + line + "\n"
            within = re.match(r"  (\w+) :", line)
            if within and " data " in " " + found[name].split("\n")[0]:
                found[within[1]] = found[name]
    return found


def modules_of(root):
    """Gives {(crate, module): Module} of every file of definitions."""
    found = {}
    for crate in crates_of(root):
        for file in sorted((root / "crates" / crate / "specs").glob("*.antt")):
            text = without_comments(read(file), "--")
            if file.stem != "Lib":
                found[crate, file.stem] = Module(definitions_of(text), *imports_of(text))
    return found


def cited(text, modules, names, aliases, own=None):
    """Gives the (module, name) of each definition that the text cites."""
    words = set(re.split(r"[\s(){}\[\];,⌜⌝«»]+", text))
    # A field stands tight behind what it is of.
    bare = words | {word.partition(".")[0] for word in words}
    known = {name: (own, name) for name in modules[own].definitions} if own else {}
    known |= {name: (place[:2], place[2]) for name, place in names.items()}
    for name, place in known.items():
        if name.strip("◌") in bare and place[0] in modules:
            yield place
    for word in words:
        alias, *named = word.split(".")
        if alias in aliases and named:
            yield aliases[alias], named[0]


def laws_of(root):
    """Gives {(path, law): its statement} of each law that the page names, or None where it isn't there."""
    named = re.findall(r"`([^`]+)`\s+of\s+\[\w+\]\(\.\./([^)]+\.antt)\)", read(root / TRUST))
    found = {}
    for law, path in named:
        text = without_comments(read(root / path), "--")
        statement = re.search(rf"^ *(?:pub )?{re.escape(law)} :.*?(?=^ *\S+ [^\n]*=|^ *unfolding)", text,
                              re.M | re.S)
        found[path, law] = statement and statement[0]
    return found


def roots_of(root, modules):
    """Gives what public contracts, promises and the laws that the page names cite."""
    for crate in crates_of(root):
        home = root / "crates" / crate
        for function in public_functions(root, crate):
            names, aliases = imports_of(without_comments(read(root / function.file), "//"))
            terms = " ".join(term for _, _, term in function.clauses)
            yield from cited(terms, modules, names, aliases)
        text = without_comments(read(home / PROMISES), "--")
        yield from cited(re.sub(r"^(?:\w+ )*use .*$", "", text, flags=re.M), modules,
                         *imports_of(text))
    for (path, _), statement in laws_of(root).items():
        text = without_comments(read(root / path), "--")
        yield from cited(statement or "", modules, *imports_of(text))


def reached(root, modules):
    found, waiting = set(), list(roots_of(root, modules))
    while waiting:
        place, name = waiting.pop()
        if (place, name) in found or name not in modules[place].definitions:
            continue
        found.add((place, name))
        module = modules[place]
        waiting += cited(module.definitions[name], modules, module.names, module.aliases, place)
    return found


def rows_of(page):
    """Gives ([(crate, module)], lines) of each row of the reading list that names files."""
    link = re.compile(r"\]\(\.\./crates/(\w+)/specs/(\w+)\.antt\)")
    for row in re.findall(r"^\| `.*\|$", page, re.M):
        if files := link.findall(row):
            yield files, int(row.split("|")[2].replace(",", ""))


def sample_faults(page, proofs):
    """Compares the one book that the page prints with the one that is proved accepted."""
    block = re.search(r"^## One book\n.*?```\n(.*?)```", page, re.M | re.S)
    printed = re.findall(r"(?<= )[0-9a-f]{2}\b", block[1]) if block else []
    proved = re.search(r"^sample_book =\n(.*?)\[\]", proofs, re.M | re.S)
    listed = re.findall(r"0x([0-9a-f]{2})\b", proved[1]) if proved else []
    return [] if printed and printed == listed else [f"prints another book than {SAMPLE} has"]


def trust_results(root):
    """Yields (rule, subject, faults): each file is read whole or serves the code, and is listed so."""
    modules = modules_of(root)
    found = reached(root, modules)
    page = read(root / TRUST)
    listed = [place for row, _ in rows_of(page) for place in row]
    for place, module in modules.items():
        crate, name = place
        inside = [n for n in module.definitions if (place, n) in found]
        outside = sorted(set(module.definitions) - set(inside))
        faults = []
        if inside and outside:
            faults.append(f"has {', '.join(outside)}, which nothing promised reaches")
        if inside and listed.count(place) != 1:
            faults.append(f"is reached by a promise or a contract, and not listed in {TRUST}")
        if not inside and place in listed:
            faults.append(f"serves the code alone, and is listed in {TRUST}")
        yield "reading", f"crates/{crate}/specs/{name}.antt:", faults
    for (path, law), statement in laws_of(root).items():
        yield "law", f"{TRUST}:", [] if statement else [f"names {law}, which {path} has not"]
    yield "sample", f"{FORMAT}:", sample_faults(read(root / FORMAT), read(root / SAMPLE))
    for row, lines in rows_of(page):
        count = sum(len(read(root / "crates" / c / "specs" / f"{m}.antt").splitlines())
                    for c, m in row)
        faults = [] if count == lines else [f"says {lines} lines of {row[0][0]}, which has {count}"]
        yield "reading", f"{TRUST}:", faults
