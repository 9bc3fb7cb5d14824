"""Sums that docs/RULES.md works by hand, each in a column of a table: every number of a column is
reckoned anew, and another one in its place is found."""
import collections
import itertools

from program_runs import ROOT, Wrong, expect

PAGE = ROOT / "docs/RULES.md"
WAYS = ["down", "up", "half, even below", "half, even above"]

# A column of the page: its name, and its numbers by the names of their rows.
Column = collections.namedtuple("Column", "name rows")


def is_row(line):
    return line.startswith("|")


def columns_below(heading):
    """The columns of the first table below the heading."""
    below = PAGE.read_text(encoding="utf-8").split(heading)[1].splitlines()
    below = itertools.dropwhile(lambda line: not is_row(line), below)
    table = [[cell.strip() for cell in line.strip("|").split("|")]
             for line in itertools.takewhile(is_row, below)]
    (_, *names), *columns = zip(table[0], *table[2:])
    return [Column(name, dict(zip(names, column))) for name, *column in columns]


def way_of(quotient, remainder, half):
    if remainder == half:
        return WAYS[2 + quotient % 2]
    return WAYS[remainder > half]


def expect_right(column, reckon):
    wanted = reckon(column.rows)
    expect(column.name, wanted.name, "the way that it goes")
    expect(list(column.rows), list(wanted.rows), "the list of rows")
    expect(column.rows, wanted.rows, "what is told")


def spoiled(column):
    """The column with one of its numbers off in the last digit, for each of them."""
    for name, text in column.rows.items():
        digit = str((int(text[-1]) + 1) % 10)
        yield name, Column(column.name, column.rows | {name: text[:-1] + digit})


def expect_found(name, wrong, reckon):
    try:
        expect_right(wrong, reckon)
    except Wrong:
        return
    raise Wrong(f"another {name} isn't found")


def try_column(cases, what, column, reckon):
    """A column is what is reckoned from its first rows."""
    with cases.case(f"docs/RULES.md: {what}"):
        expect_right(column, reckon)
    with cases.case(f"a wrong number of {what} is found"):
        for name, wrong in spoiled(column):
            expect_found(name, wrong, reckon)
