"""The second set of warming values, which a book's trailer names. A report's CO2 equivalent and its
decision follow the set, and nothing else does: no line of a record, and no byte of a checkpoint."""
from program_annual import EXAMPLE, ONE, TRAILER, site
from program_books import LINE, TONNE, ledgers_in, patch, report, under_set
from program_jobs import ALL, Plan, job_on, plan_by_lines, plan_plant
from program_lines import FORMS, book_of
from program_runs import PLANT, expect, expect_told

# Tonnes of fossil CO2, biomass CO2, CH4 and N2O; then for each set the CO2 equivalent in tonnes and
# the decision, both worked by hand.
SITES = {
    "CH4 that reaches 10,000 t under the second set alone": (
        (7_500, 0, 100, 0), (9_600, b"no"), (10_000, b"yes")),
    "N2O that reaches 10,000 t under the first set alone": (
        (6_900, 0, 0, 10), (10_000, b"yes"), (9_880, b"no")),
    "CH4 that reaches 25,000 t under the second set alone, most of it wood's": (
        (6_500, 16_000, 100, 0), (24_600, b"no"), (25_000, b"yes")),
    "N2O that reaches 25,000 t under the first set alone, most of it wood's": (
        (5_900, 16_000, 0, 10), (25_000, b"yes"), (24_880, b"no")),
    "three times as much CH4 as N2O, which is the same under both": (
        (9_627, 0, 3, 1), (10_000, b"yes"), (10_000, b"yes")),
}


def try_own_warming(cases):
    """What this test reckons itself, against the sums by hand."""
    for name, (tonnes, *answers) in SITES.items():
        for warming_set, (total, decision) in enumerate(answers):
            with cases.case(f"the report that is reckoned here, set {warming_set}: {name}"):
                told = report(site(*tonnes, warming_set), [TONNE * mass for mass in tonnes])
                ended = b"co2e-kg %d\nmust-report %s\n" % (1000 * total, decision)
                expect(told[-len(ended):], ended, "its end")


def try_warming_reports(programs, cases):
    with cases.case("annual: the example under the second set, 1,901.874 kg in place of 1,901.778"):
        expect_told(programs.run("annual", data=under_set(ONE, 1)), EXAMPLE)
    for name, (tonnes, *answers) in SITES.items():
        for warming_set in range(len(answers)):
            with cases.case(f"annual: set {warming_set}, {name}"):
                of = site(*tonnes, warming_set)
                wanted = report(of, [TONNE * mass for mass in tonnes])
                expect_told(programs.run("annual", data=of), wanted)


def try_warming_bytes(programs, cases):
    """The bytes beside the set have to be 0 under the second as under the first."""
    for at in (18, 19, *range(21, LINE)):
        with cases.case(f"annual: byte {at} of the trailer under the second set"):
            of = patch(under_set(ONE, 1), TRAILER + at, b"\1")
            expect_told(programs.run("annual", data=of), b"refused 21\n")


def try_warming_lines(programs, cases):
    with cases.case("lines: every form under the second set is as under the first"):
        of = book_of(FORMS, warming_set=1)
        lines = [f"record {i} {wanted}\n" for i, (_, _, wanted) in enumerate(FORMS)]
        expect_told(programs.run("lines", data=of), "".join(lines).encode())
    with cases.case("lines: examples/plant.book under the second set is as under the first"):
        plant = PLANT.read_bytes()
        expect_told(programs.run("lines", data=under_set(plant, 1)),
                    programs.run("lines", data=plant).out)


def under_second(plan):
    """The plan of the same book under the second set, with the checkpoints of the first."""
    of = under_set(plan.book, 1)
    return Plan(of, plan.places, report(of, ledgers_in(plan.places[-1])))


def try_warming_changes(programs, cases):
    """Between two wakes the set is another, and then the first again: each time it's another book,
    and the job ends with the report of the one that is there."""
    first = plan_plant(programs)
    second = under_second(first)
    for before in ([0], [100], [100, ALL]):
        with cases.case(f"wake: another set after {before}, and back"), job_on(
                programs, first.book) as job:
            place = 0
            for budget in before:
                place = job.expect_woken(first, place, budget)
            job.book.write_bytes(second.book)
            place = job.expect_woken(second, 0, 100, err=job.changed())
            job.expect_woken(second, place, ALL)
            job.book.write_bytes(first.book)
            job.expect_woken(first, 0, ALL, err=job.changed())


def try_warming_words(programs, cases):
    """A checkpoint without a copy is taken at its word, whatever set its book had: under both
    the checkpoints are the same, and the report is of the set that is there."""
    first = plan_by_lines(programs, site(6_900, 0, 0, 10))
    for warming_set, plan in enumerate((first, under_second(first))):
        for place in range(plan.count + 1):
            with cases.case(f"wake: no copy, and set {warming_set} is the book's, from {place}"), \
                    job_on(programs, plan.book) as job:
                job.stand(plan.places[place], None)
                job.expect_woken(plan, place, ALL)


def try_warming(programs, cases):
    try_own_warming(cases)
    try_warming_reports(programs, cases)
    try_warming_bytes(programs, cases)
    try_warming_lines(programs, cases)
    try_warming_changes(programs, cases)
    try_warming_words(programs, cases)
