"""The books in tools/kept, of which every program prints and saves what is kept beside them."""
import collections

from program_books import LINE, count_of
from program_jobs import ALL, Plan, job_on
from program_runs import ROOT, expect, expect_told

FOLDER = ROOT / "tools/kept"
NAMES = ("analysed-gas", "anodes", "biomass", "dry-hours", "empty", "hours", "low-heats", "methods",
         "reasons")
STEP = 3  # records of a wake, which divides the number of some books' records and not of others

Kept = collections.namedtuple("Kept", "book annual lines midway checkpoint")


def kept_books():
    """Each name with the book and its answers."""
    for name in NAMES:
        yield name, Kept(*((FOLDER / f"{name}.{part}").read_bytes() for part in Kept._fields))


def kinds_of(kept):
    """Byte 0 of each record that counts."""
    records = [kept.book[LINE * index] for index in range(count_of(kept.book))]
    return [kind for kind, line in zip(records, kept.lines.splitlines()) if b" co2-ug " in line]


def try_kept_folder(cases):
    """A file that got lost would be a promise less, and one that nobody reads is none."""
    with cases.case("tools/kept: its files are those that are tried"):
        files = [f"{name}.{part}" for name in NAMES for part in Kept._fields]
        expect(sorted(path.name for path in FOLDER.iterdir()), sorted(["README.md", *files]),
               "the list of files")
    with cases.case("tools/kept: records of every kind count"):
        expect({kind for _, kept in kept_books() for kind in kinds_of(kept)}, {1, 2, 3, 4},
               "the set of kinds")


def wake_to_end(programs, kept, budget):
    """A job from a fresh start, in wakes of this budget."""
    plan = Plan(kept.book, [], kept.annual)
    with job_on(programs, kept.book) as job:
        for place in range(0, max(1, plan.count), budget):
            expect_told(job.wake(budget), plan.told(place, budget))
        job.expect_saved(kept.checkpoint)


def try_kept_answers(programs, cases):
    for name, kept in kept_books():
        with cases.case(f"annual: tools/kept/{name}.book"):
            expect_told(programs.run("annual", data=kept.book), kept.annual)
        with cases.case(f"lines: tools/kept/{name}.book"):
            expect_told(programs.run("lines", data=kept.book), kept.lines)
        with cases.case(f"wake: tools/kept/{name}.book, at once"):
            wake_to_end(programs, kept, int(ALL))


def try_kept_steps(programs, cases):
    for name, kept in kept_books():
        with cases.case(f"wake: tools/kept/{name}.book, by {STEP} records"):
            wake_to_end(programs, kept, STEP)


def try_kept_places(programs, cases):
    """A checkpoint that was stored halfway is still the book's, and leads where it led. Without a
    copy it is taken at its word."""
    for name, kept in kept_books():
        plan = Plan(kept.book, [], kept.annual)
        half = plan.count // 2
        with cases.case(f"wake: tools/kept/{name}.midway is what is saved halfway"), job_on(
                programs, kept.book) as job:
            expect_told(job.wake(half), plan.told(0, half))
            job.expect_saved(kept.midway)
        for copy in (kept.book, None):
            kind = "with" if copy else "without"
            with cases.case(f"wake: from tools/kept/{name}.midway, {kind} a copy"), job_on(
                    programs, kept.book) as job:
                job.stand(kept.midway, copy)
                expect_told(job.wake(ALL), plan.told(half, int(ALL)))
                job.expect_saved(kept.checkpoint)


def try_kept(programs, cases):
    try_kept_folder(cases)
    try_kept_answers(programs, cases)
    try_kept_steps(programs, cases)
    try_kept_places(programs, cases)
