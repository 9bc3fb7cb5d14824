"""Runs of `tablet` to the end, what it makes of wrong lists, and of a list that can't be served."""
from kill_saves import limit_files
from program_jobs import ALL
from program_runs import FAILED, MISUSED, expect, expect_answer, expect_failure, expect_told
from tablet_model import KEPT, LIST, line_of, tablet_on

USAGE = b"usage: tablet LIST BUDGET, of 1 or more\n"
BUDGETS = [1, 7, 100, 282, int(ALL)]
WRONG_BUDGETS = ["0", "00", "x", "", "-1", "4294967296"]
LONGEST_BOOK, LONGEST_CHECKPOINT, LONGEST_LIST = 4095, 4083, 4082  # bytes of a path

GOOD = "a.book a.saved\n"
WRONG = "line {} isn't BOOK CHECKPOINT"
COMMENT = "line {} is a comment, and a list has none"
RETURN = "line {} ends in a return: save the list with plain newlines"
SPACE = "line {} has a space too many: no path in a list has one"
LONG = "line {} has a path that is too long"
# Each wrong list, and what standard error says of which line. Lines are counted from 1.
WRONG_LINES = {
    "one word": ("a.book\n", WRONG, 1),
    "three words": ("a.book a.saved more\n", SPACE, 1),
    "two spaces": ("a.book  a.saved\n", SPACE, 1),
    "a space in front": (" a.book a.saved\n", SPACE, 1),
    "a space behind": ("a.book a.saved \n", SPACE, 1),
    "a space alone": (" \n", WRONG, 1),
    "no book": (" a.saved\n", WRONG, 1),
    "no checkpoint": ("a.book \n", WRONG, 1),
    "a tab between": ("a.book\ta.saved\n", WRONG, 1),
    "a return": ("a.book a.saved\r\n", RETURN, 1),
    "a return in a second line": (GOOD + "b.book b.saved\r\n", RETURN, 2),
    "a return and no newline": (GOOD + "b.book b.saved\r", RETURN, 2),
    "a return alone": (GOOD + "\r\n", RETURN, 2),
    "a return behind three words": ("a.book a.saved more\r\n", RETURN, 1),
    "a comment": ("# the plants\n" + GOOD, COMMENT, 1),
    "a comment in a second line": (GOOD + "#b.book b.saved\n", COMMENT, 2),
    "a comment that ends in a return": ("# the plants\r\n", COMMENT, 1),
    "a comment alone": ("#", COMMENT, 1),
    "a zero byte": ("a.book a\0saved\n", WRONG, 1),
    "an empty line": (GOOD + "\n", WRONG, 2),
    "an empty line in front": ("\n" + GOOD, WRONG, 1),
    "half a line at the end": (GOOD + "b.book", WRONG, 2),
    "too long a book's path": ("b" * (LONGEST_BOOK + 1) + " a.saved\n", LONG, 1),
    "too long a checkpoint's path": (
        "a.book " + "s" * (LONGEST_CHECKPOINT + 1) + "\n", LONG, 1),
    "too long a path in a third line": (
        GOOD + line_of("b") + "c.book " + "s" * 9000 + "\n", LONG, 3),
    "too long a path and two spaces": ("b" * 5000 + "  a.saved\n", SPACE, 1),
    "a line twice": (GOOD + line_of("b") + GOOD, "line {} names a checkpoint again", 3),
    "a checkpoint twice": (GOOD + "b.book a.saved\n", "line {} names a checkpoint again", 2),
    "17 plants": ("".join(map(line_of, range(17))), "more than 16 plants", 17),
    "17 plants, the last one wrong": (
        "".join(map(line_of, range(16))) + "x\n", "more than 16 plants", 17),
    "a line wrong before 17 plants": ("x\n" + "".join(map(line_of, range(17))), WRONG, 1),
    "200,000 bytes": ("".join(map(line_of, range(20000))), "more than 16 plants", 17),
}


def try_runs(programs, cases, plans):
    several = {"one": ["a"], "three": ["b", "a", "c"], "all": list(plans)}
    for kind, names in several.items():
        for budget in BUDGETS:
            with cases.case(f"{kind} of the plants with a budget of {budget}"), tablet_on(
                    programs, {name: plans[name] for name in names}) as tablet:
                tablet.expect_run(budget)
                tablet.expect_run(budget)  # Now all are done, and told again.
    with cases.case("an empty list"), tablet_on(programs, {}) as tablet:
        tablet.expect_run(5)
    with cases.case("a list whose last line isn't ended"), tablet_on(programs, plans) as tablet:
        path = tablet.folder / LIST
        path.write_bytes(path.read_bytes()[:-1])
        tablet.expect_run(50)
    with cases.case("a book whose name begins as a comment does"), tablet_on(
            programs, {"./#a": plans["a"]}) as tablet:
        expect_told(tablet.run(50), tablet.told("./#a", 0, 50))
    with cases.case("a job that was begun by wake"), tablet_on(programs, plans) as tablet:
        programs.run("wake", "a.book", "a.saved", "17", cwd=tablet.folder)
        expect(tablet.place("a"), 17, "the place")
        tablet.expect_run(50)


def try_wrong_lists(programs, cases, plans):
    one = {"a": plans["a"]}
    for name, (text, words, number) in WRONG_LINES.items():
        with cases.case(f"of a list, {name}"), tablet_on(programs, one) as tablet:
            (tablet.folder / LIST).write_bytes(text.encode())
            before = tablet.files()
            told = f"{LIST}: {words.format(number)}\n".encode()
            expect_answer(tablet.run(5), FAILED, b"", told)
            expect(tablet.files(), before, "the folder")
    with cases.case("of a list, 200,000 bytes of one line"), tablet_on(programs, one) as tablet:
        (tablet.folder / LIST).write_bytes(b"x" * 200_000)
        expect_failure(tablet.run(5), b"list: line 1 ")
    with cases.case("no list"), tablet_on(programs, one) as tablet:
        (tablet.folder / LIST).unlink()
        expect_answer(tablet.run(5), FAILED, b"", b"list: No such file or directory\n")
    with cases.case("a list that is a folder"), tablet_on(programs, one) as tablet:
        expect_failure(programs.run("tablet", ".", "5", cwd=tablet.folder), b".: Is a directory")


def try_arguments(programs, cases, plans):
    one = {"a": plans["a"]}
    for args in [[], [LIST], [LIST, "5", "5"]] + [[LIST, word] for word in WRONG_BUDGETS]:
        with cases.case(f"wrong arguments, {args}"), tablet_on(programs, one) as tablet:
            before = tablet.files()
            answer = programs.run("tablet", *args, cwd=tablet.folder)
            expect_answer(answer, MISUSED, b"", USAGE)
            expect(tablet.files(), before, "the folder")
    with cases.case("a list whose path is too long"), tablet_on(programs, one) as tablet:
        before = tablet.files()
        path = "." + LIST.rjust(LONGEST_LIST, "/")
        expect_answer(programs.run("tablet", path, "5", cwd=tablet.folder), MISUSED, b"",
                      f"tablet: LIST is longer than {LONGEST_LIST} bytes\n".encode())
        expect(tablet.files(), before, "the folder")


def try_longest(programs, cases, plans):
    """Paths that are as long as they may be are served, though most of them are slashes."""
    with cases.case("the longest paths"), tablet_on(programs, {"a": plans["a"]}) as tablet:
        of, saved, path = ("." + name.rjust(length - 1, "/") for name, length in (
            ("a.book", LONGEST_BOOK), ("a.saved", LONGEST_CHECKPOINT), (LIST, LONGEST_LIST)))
        (tablet.folder / LIST).write_text(f"{of} {saved}\n", encoding="utf-8")
        answer = programs.run("tablet", path, ALL, cwd=tablet.folder)
        told = tablet.told("a", 0, int(ALL)).replace(b"a.book ", of.encode() + b" ")
        expect_answer(answer, 0, told)
        expect(tablet.place("a"), plans["a"].count, "the place")


def try_places(programs, cases, plans):
    """Whose turn it is has to be kept before anybody is served."""
    with cases.case("the place can't be read: nobody is served"), tablet_on(
            programs, plans) as tablet:
        (tablet.folder / KEPT).mkdir()
        before = tablet.files()
        expect_answer(tablet.run(5), FAILED, b"", b"list.place: Is a directory\n")
        expect(tablet.files(), before, "the folder")
    with cases.case("the place can't be kept: nobody is served"), tablet_on(
            programs, plans) as tablet:
        before = tablet.files()
        answer = tablet.run(5, preexec_fn=limit_files(10, is_told=True))
        expect_answer(answer, FAILED, b"", b"list.place: File too large\n")
        expect(tablet.files(), before, "the folder")


def try_lists(programs, cases, plans):
    for attempt in (try_runs, try_wrong_lists, try_arguments, try_longest, try_places):
        attempt(programs, cases, plans)
