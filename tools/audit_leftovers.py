"""Finds what a finished file doesn't hold: marks of open work, and code behind a comment mark."""
import re

OPEN_WORK = re.compile(r"\b(TO[D]O|FIX[M]E|XX[X])\b")
MARKS = {".rt": "//", ".c": "//", ".h": "//", ".rs": "//", ".antt": "--", ".py": "#", ".sh": "#"}

# What a comment's text looks like when it is code. Prose rarely ends in a semicolon or a brace, has
# no space before a colon, and has small words that stand on the left of no clause.
CODE = {
    "//": re.compile(r"""
        (pub|use|mod|let|const|struct|enum|impl|return|break|continue|ghost|static)\b .* [;{(,]
        | (pub \s)? fn \s \w+ [(<] .*                     | (requires|ensures)\b .* \{ .*
        | (if|else|while|for|loop|match|switch)\b .* [{}] | \S .* \s => \s .*
        | [\w.*]+ (\[.*\])? \s [-+*/%&|^<>]*= \s .* ;     | [\w:.]+ \( .* \) ;
        | [{}] [;,)]* (\s else .*)?                       | \# (\[|include|define) .*""", re.X),
    "--": re.compile(r"""
        ((unfoldable|pub)\s)* use \s \w+ \. \S .*         | pub \s (mod|data|record) \s .*
        | unfolding (\s \S* [^\s.,;:])+                   | (data|record|module) \s .* \s where
        | ((unfoldable|abbrev|pub)\s)* \S+ \s : \s .*     | let \s .* \s = \s .*
        | (?! (.*\s)? (with|where|if|the|of|is|are|and|for|so|when|has|that|as|by|to|an) \s .* = )
          (?![A-Z]) [^\W\d] ([^,;:.`"()] | \( [^()]* \))* \s = (\s .*)?""", re.X),
    "#": re.compile(r"""
        [A-Za-z_] [\w.\[\]]* (= | \s[-+*/|]?=\s) \S .*    | (def|class) \s \w+ .* :
        | import \s [\w.]+                                | from \s [\w.]+ \s import \s .*
        | (if|elif|while|with)\b .* [=<>(] .* :           | for \s \w+ \s in \s .* :
        | (else|try) :   | fi   | done   | esac           | .* ; \s (then|do)
        | [\w.]+ \( ([^()] | \([^()]*\))* \)              | return (\s \S+)?
        | \w+ \s .* ("\$ | \$\( | \s&&\s | \s\|\|\s) .*""", re.X),
}


def leftover_faults(path, text):
    mark = MARKS.get(path.suffix, "#" if text.startswith("#!") else None)
    faults = []
    for number, line in enumerate(text.splitlines(), 1):
        if OPEN_WORK.search(line):
            faults.append(f"line {number} has a mark of open work")
        comment = mark and re.match(rf"\s*(?:{mark})+/?\s*(.*?)\s*$", line)
        if comment and CODE[mark].fullmatch(comment[1]):
            faults.append(f"line {number} is code behind a comment mark")
    return faults
