"""Plants that are refused or that fail: each is named, keeps what it has, and holds up nobody. The
status of the run tells of them, and of a failure before a refusal."""
from program_annual import REFUSED
from program_books import CHECKPOINT, book, checkpoint, fuel_record, unit_line
from program_jobs import plans_by_replay
from program_runs import FAILED, TURNED_AWAY, expect, expect_answer, expect_told
from tablet_model import changed, ends_of, tablet_on

BUDGET = 20
HINT = ("{0}.book {0}.saved isn't this book's checkpoint; wake BOOK CHECKPOINT BUDGET fresh starts"
        " anew\n")
LEFT = "{0}.book {0}.saved: neither empty nor as long as a checkpoint, so it is left as it is\n"
FULL_OUTPUT = b"standard output (checkpoints are saved all the same): No space left on device\n"


def look(tablet, name):
    """What stands under each of a plant's names, also where it isn't a file of its own."""
    paths = [tablet.path(name, kind) for kind in ("book", "saved", "saved.book")]
    return [path.read_bytes() if path.is_file() else path.is_dir() for path in paths]


def expect_beside(tablet, bad, status, out, err):
    """A run that serves the others as if the bad plants weren't there, and tells this of them."""
    before, names = {name: look(tablet, name) for name in bad}, tablet.names
    tablet.list(name for name in names if name not in bad)
    wanted = b"".join(told for _, told in tablet.turns(BUDGET))
    ends = ends_of({name: tablet.plans[name] for name in tablet.names})
    tablet.list(names)
    answer = tablet.run(BUDGET)
    lines = {True: b"", False: b""}
    for line in answer.out.splitlines(True):
        lines[line.split(b".")[0].decode() in bad] += line
    # Whether a change was told before a failure is nobody's loss.
    said = b"".join(line for line in answer.err.splitlines(True) if line not in map(changed, bad))
    expect_answer(answer._replace(out=lines[True], err=said), status, out, err)
    expect(lines[False], wanted, "what is told of the others")
    expect({name: look(tablet, name) for name in bad}, before, "what the bad plants had")
    tablet.list(ends)
    expect(tablet.places(), ends, "the places of the others")


def refuse_book(number, of):
    def spoil(tablet, name):
        tablet.path(name, "book").write_bytes(of)
        return f"{name}.book refused {number}\n", ""
    return spoil


def refuse_checkpoint(number, saved, is_copied):
    def spoil(tablet, name):
        tablet.stand(name, 0)
        tablet.path(name, "saved").write_bytes(saved)
        if not is_copied:
            tablet.path(name, "saved.book").unlink()
        return f"{name}.book refused {number}\n", HINT.format(name)
    return spoil


def lose_book(tablet, name):
    tablet.path(name, "book").unlink()
    return "", f"{name}.book: No such file or directory\n"


def block_checkpoint(tablet, name):
    tablet.path(name, "saved").mkdir()
    return "", f"{name}.book {name}.saved: Is a directory\n"


def block_copy(tablet, name):
    tablet.path(name, "saved").write_bytes(tablet.plans[name].places[5])
    tablet.path(name, "saved.book").mkdir()
    return "", f"{name}.book {name}.saved.book: Is a directory\n"


def link_checkpoint(tablet, name):
    tablet.path(name, "saved").symlink_to(f"{name}.book")
    return "", f"{name}.book {name}.saved: is the book itself\n"


def link_copy(tablet, name):
    tablet.path(name, "saved.book").symlink_to(f"{name}.book")
    return "", f"{name}.book {name}.saved.book: is the book itself\n"


def put_text(tablet, name):
    """The book has changed, and its new start would replace something else than a checkpoint."""
    tablet.path(name, "saved").write_bytes(b"notes\n")
    tablet.path(name, "saved.book").write_bytes(b"another")
    return "", LEFT.format(name)


FAILURES = [lose_book, block_checkpoint, block_copy, link_checkpoint, link_copy, put_text]


def try_refused(programs, cases, plans):
    three = {name: plans[name] for name in "acd"}
    spoils = {f"of a book, {name}": refuse_book(*refused) for name, refused in REFUSED.items()}
    for number, saved in ((30, b""), (30, bytes(CHECKPOINT + 1)), (31, bytes(CHECKPOINT)),
                          (31, checkpoint(plans["b"].book, 1))):
        for is_copied in (True, False):
            name = f"a checkpoint of {len(saved)} bytes, copied {is_copied}, {saved[:1]!r}"
            spoils[name] = refuse_checkpoint(number, saved, is_copied)
    for turn, (name, spoil) in enumerate(spoils.items()):
        with cases.case(f"{name} is refused"), tablet_on(programs, three) as tablet:
            bad = "acd"[turn % 3]
            out, err = spoil(tablet, bad)
            expect_beside(tablet, bad, TURNED_AWAY, out.encode(), err.encode())


def try_failures(programs, cases, plans):
    three = {name: plans[name] for name in "acd"}
    for spoil in FAILURES:
        for bad in "acd":
            with cases.case(f"{spoil.__name__} of {bad}"), tablet_on(programs, three) as tablet:
                out, err = spoil(tablet, bad)
                expect_beside(tablet, bad, FAILED, out.encode(), err.encode())
    with cases.case("a checkpoint whose folder isn't there"), tablet_on(programs, three) as tablet:
        text = (tablet.folder / "list").read_text(encoding="utf-8")
        (tablet.folder / "list").write_text(text.replace("c.saved", "gone/c"), encoding="utf-8")
        answer = tablet.run(BUDGET)
        expect(answer.status, FAILED, "the exit status")
        expect(answer.err in (b"c.book gone/c: No such file or directory\n",
                              b"c.book gone/c.book: No such file or directory\n"), True,
               f"that {answer.err!r} names it")
        expect([tablet.place(name) for name in "ad"], [plans[name].count for name in "ad"],
               "the places of the others")


def try_statuses(programs, cases, plans):
    """A failure is told by the status before a refusal is, wherever it stands in the list."""
    small = book([fuel_record(), fuel_record(), fuel_record()], [unit_line(rating=2501)])
    aside = plans_by_replay(programs, [small])[0]
    three = {"a": plans["a"], "c": plans["c"], "x": aside}
    for names in ("acx", "xca", "x"):
        with cases.case(f"records are set aside, in {names}"), tablet_on(
                programs, {name: three[name] for name in names}) as tablet:
            expect(aside.ended, b"refused 41 record 0 reason 6\n", "the end of x")
            tablet.expect_run(BUDGET)
            tablet.expect_run(BUDGET)
    for names in ("acdx", "xdca"):
        for spoil in (refuse_book(20, b""), refuse_checkpoint(31, bytes(CHECKPOINT), True)):
            with cases.case(f"one is refused, one fails and one is set aside, in {names}"), \
                    tablet_on(programs, {name: (three | plans)[name] for name in names}) as tablet:
                (out, hint), (_, failure) = spoil(tablet, "a"), lose_book(tablet, "d")
                told = (hint + failure) if names == "acdx" else (failure + hint)
                expect_beside(tablet, "ad", FAILED, out.encode(), told.encode())


def try_full_output(programs, cases, plans):
    """It is told once, all are served, and the next run tells the reports."""
    for names in ("abcde", "a"):
        with cases.case(f"standard output is full: all of {names} are served"), tablet_on(
                programs, {name: plans[name] for name in names}) as tablet:
            with open("/dev/full", "wb") as full:
                expect_answer(tablet.run(20, stdout=full), FAILED, None, FULL_OUTPUT)
            expect(tablet.places(), ends_of(tablet.plans), "the places")
            with open("/dev/full", "wb") as full:
                expect_answer(tablet.run(20, stdout=full), FAILED, None, FULL_OUTPUT)
            expect_told(tablet.run(1), tablet.finished())


def try_plants(programs, cases, plans):
    for attempt in (try_refused, try_failures, try_statuses, try_full_output):
        attempt(programs, cases, plans)
