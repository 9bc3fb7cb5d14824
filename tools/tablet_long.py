"""A tablet with the longest book, of 4 MiB, among its plants: to the end, refused, cut short and
grown, and through kills while it is read, within its saves and at random instants."""
import functools
import tempfile

from kill_long import LENGTHS
from program_books import LINE, LONGEST, MOST_ANNUAL
from program_copy import correct
from program_grown import kill_reading, plan_edited
from program_jobs import ALL
from program_long import FAR, longest_plan, plan_deliveries, too_long
from program_runs import TURNED_AWAY, expect
from tablet_edits import plans_of
from tablet_kills import CUT_AT, Killed, cut_turn, expect_turn, one_turn
from tablet_model import tablet_on
from tablet_plants import expect_beside, refuse_book

BUDGET = 40_000  # so that the longest book has several turns
SECONDS = 0.05  # that a killed run is given at most, at first


def plans_beside(plans):
    """The longest book between two short ones."""
    return {"a": plans["a"], "long": longest_plan(), "d": plans["d"]}


def try_long_runs(programs, cases, plans):
    for budget in (BUDGET, int(ALL)):
        with cases.case(f"the longest book among the plants, with a budget of {budget}"), tablet_on(
                programs, plans_beside(plans)) as tablet:
            tablet.expect_run(budget)
            tablet.expect_run(budget)  # Now all are done, and told again.
    with cases.case("the longest book goes on from a place that 16 bits don't hold"), tablet_on(
            programs, plans_beside(plans)) as tablet:
        tablet.stand("long", FAR + 1)
        expect_turn(tablet, one_turn, "a", 3)
        expect_turn(tablet, one_turn, "long", 3)


def try_refused(programs, cases, plans):
    """Too long, or cut short between two runs: it keeps what it has, and goes on when it is whole."""
    spoiled = {name: (20, of) for name, of in too_long().items()}
    spoiled["half of the longest book"] = 21, longest_plan().book[:LONGEST // 2]
    spoiled["the longest book less a byte"] = 20, longest_plan().book[:-1]
    for name, (number, of) in spoiled.items():
        with cases.case(f"of a book, {name} is refused, and then whole"), tablet_on(
                programs, plans_beside(plans)) as tablet:
            tablet.stand("long", FAR + 1)
            out, err = refuse_book(number, of)(tablet, "long")
            expect_beside(tablet, ["long"], TURNED_AWAY, out.encode(), err.encode())
            tablet.list(plans_beside(plans))
            tablet.edit("long", longest_plan())
            tablet.expect_run(BUDGET)


def try_grown(programs, cases, plans):
    """From run to run a book grows and shrinks, and starts anew each time."""
    full = plan_deliveries(range(MOST_ANNUAL // LINE - 3))
    with cases.case("a book grows from 65,536 bytes to the longest, and shrinks"), tablet_on(
            programs, plans_beside(plans) | {"long": full}) as tablet:
        tablet.expect_run(BUDGET)
        for plan in (longest_plan(), plan_edited(FAR + 7), full):
            tablet.edit("long", plan)
            tablet.expect_run(BUDGET)


def try_reads(programs, cases, plans):
    for place in (None, FAR + 1):
        with cases.case(f"a tablet is killed as it reads the longest book, from {place}"), \
                tablet_on(programs, plans_beside(plans)) as tablet:
            if place:
                tablet.stand("long", place)
            before = tablet.files()
            start = functools.partial(programs.start, *tablet.args(BUDGET), cwd=tablet.folder)
            kill_reading(tablet.path("long", "book"), start, LONGEST // 2 + 7)
            expect(tablet.files(), before, "the folder")
            tablet.expect_run(BUDGET)


def drop_stale(tablet):
    """Takes away the temporary file that a cut save has left behind."""
    stale = [path for path in tablet.folder.glob("long.saved*.??????")]
    expect(len(stale), 1, "the number of files that are left behind")
    stale[0].unlink()


def try_saves(programs, cases, plans):
    """A turn of the longest book is cut within the save of its copy, or of its checkpoint."""
    lengths = [length for length in LENGTHS if length > CUT_AT]
    for length in (CUT_AT, *lengths):
        for begun in [None] if length > CUT_AT else [None, FAR + 1]:
            three = {"long": longest_plan(), "a": plans["a"], "d": plans["d"]}
            with cases.case(f"a turn of the longest book from {begun} is cut after {length}"), \
                    tablet_on(programs, three) as tablet:
                if begun:
                    tablet.stand("long", begun)
                expect_turn(tablet, lambda tablet: cut_turn(tablet, BUDGET, length), "long", 0)
                drop_stale(tablet)
                tablet.expect_run(BUDGET)


def try_kills(programs, cases, plans, chance, jobs):
    """Kills at random instants, on a disk if there is one."""
    others = {"long": plan_edited(3)} | plans_of(programs, {"a": correct(plans["a"].book, 3)})
    starts = cut = 0
    for job in range(jobs):
        with cases.case(f"job {job} with the longest book is killed at random until it is done"), \
                tablet_on(programs, plans_beside(plans), tempfile.TemporaryDirectory) as tablet:
            killed = Killed(tablet, others, chance, BUDGET, SECONDS)
            killed.finish()
            starts, cut = starts + killed.starts, cut + killed.cut
    cases.note(f"{jobs} jobs with the longest book in {starts} runs: {cut} kills within a turn")


def try_long(programs, cases, plans, chance, jobs):
    for attempt in (try_long_runs, try_refused, try_grown, try_reads, try_saves):
        attempt(programs, cases, plans)
    try_kills(programs, cases, plans, chance, jobs)
