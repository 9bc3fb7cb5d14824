"""Jobs on books with records that repeat others: what `wake`, `tablet` and `replay` print and save from
wake to wake, also where the book is edited between, and which checkpoints may name a repeat."""
import pathlib

from program_books import book, checkpoint, each_line, report
from program_jobs import ALL, job_on
from program_lines import FUELS
from program_model import BUDGETS, LISTED, expect_answered, plan_of
from program_months import ANODES
from program_repeats import HOURS
from program_replay import BLANK, REPORT, WAKE, answer, frame
from program_runs import expect_told, memory_folder

HIGHEST_REASON = 8


def times(count, masses):
    return tuple(count * mass for mass in masses)


def try_steps(programs, cases, once, budgets=(3,)):
    """From wake to wake: what a repeat repeats may have been gone through by an earlier one."""
    plan = plan_of(once.stream)
    for budget in budgets:
        with cases.case(f"wake: {once.name} with repeats, {budget} records a wake"), job_on(
                programs, plan.book) as job:
            place = 0
            while place < plan.count:
                place = job.expect_woken(plan, place, budget)


def try_hour_steps(programs, cases):
    try_steps(programs, cases, HOURS)


def try_anode_steps(programs, cases):
    try_steps(programs, cases, ANODES)


def try_older(programs, cases, once):
    """An older checkpoint of the same job, at every place, gives what the job gave."""
    plan = plan_of(once.stream)
    with cases.case(f"wake: {once.name} with repeats, from an older checkpoint at every place"), \
            job_on(programs, plan.book) as job:
        job.expect_woken(plan, 0, ALL)
        for place in range(plan.count + 1):
            job.stand(plan.places[place], plan.book)
            job.expect_woken(plan, place, ALL)


def try_counted_twice(programs, cases, once):
    """A checkpoint in which a record was added twice is sound, and its ledgers stay as they are: the
    records that are left are judged by the book."""
    of = book([once.make(7), once.make(7), once.make(8), once.make(7), once.make_other(8)], LISTED,
              FUELS)
    thrice = times(3, once.masses)
    with cases.case(f"wake: {once.name}, a checkpoint that has one twice"), job_on(
            programs, of) as job:
        job.stand(checkpoint(of, 2, times(2, once.masses)), of)
        expect_told(job.wake(1), b"moved 1\ndone 3 of 5\n")
        job.expect_saved(checkpoint(of, 3, thrice))
        expect_told(job.wake(ALL), b"moved 2\ndone 5 of 5\nrefused 41 record 3 reason 8\n")
        job.expect_saved(checkpoint(of, 5, thrice, aside=2, first=3, reason=8))


def try_taken_out(programs, cases, once):
    """The report is withheld as long as a repeat is there. It goes where the record is taken out, or
    where its number is corrected, and comes back with the wrong number."""
    twice, single, corrected = (book([once.make(number) for number in numbers], LISTED, FUELS)
                                for numbers in ((7, 7), (7,), (7, 8)))
    refused = b"moved 2\ndone 2 of 2\nrefused 41 record 1 reason 8\n"
    for name, of, count in (("taken out of", single, 1), ("corrected in", corrected, 2)):
        with cases.case(f"wake: {once.name}, a repeat that is {name} the book"), job_on(
                programs, twice) as job:
            expect_told(job.wake(ALL), refused)
            job.expect_saved(checkpoint(twice, 2, once.masses, aside=1, first=1, reason=8))
            job.book.write_bytes(of)
            ledgers = times(count, once.masses)
            told = f"moved {count}\ndone {count} of {count}\n".encode() + report(of, ledgers)
            expect_told(job.wake(ALL), told, job.changed())
            job.expect_saved(checkpoint(of, count, ledgers))
            job.book.write_bytes(twice)
            expect_told(job.wake(ALL), refused, job.changed())


def try_named_reasons(programs, cases):
    """Which reasons a sound checkpoint names."""
    of = book([HOURS.make(), HOURS.make()], LISTED, FUELS)
    calls = []
    for reason in range(256):
        saved = checkpoint(of, 2, HOURS.masses, aside=1, first=1, reason=reason)
        woken, told = answer(31, out=BLANK), answer(31)
        if 1 <= reason <= HIGHEST_REASON:
            woken, told = answer(out=saved), answer(41, reason, 1)
        calls += [(frame(WAKE, 1, of, saved, BLANK), woken), (frame(REPORT, 0, of, saved), told)]
    with cases.case("replay: every reason that a checkpoint could name"):
        expect_answered(programs, calls)


def try_turns(programs, cases, once):
    plan, budget = plan_of(once.stream), 4
    turns = [f"moved {plan.moved(place, budget)} done {place + plan.moved(place, budget)} of "
             f"{plan.count}\n" for place in range(0, plan.count, budget)]
    with memory_folder() as folder, cases.case(f"tablet: {once.name} with repeats, in turns"):
        pathlib.Path(folder, "a.book").write_bytes(plan.book)
        pathlib.Path(folder, "list").write_text("a.book a.saved\n", encoding="utf-8")
        told = programs.run("tablet", "list", str(budget), cwd=folder)
        expect_told(told, each_line("a.book ", "".join(turns).encode() + plan.ended))


def try_resent(programs, cases):
    for once in (HOURS, ANODES):
        try_steps(programs, cases, once, BUDGETS)
        for attempt in (try_older, try_counted_twice, try_taken_out, try_turns):
            attempt(programs, cases, once)
    try_named_reasons(programs, cases)
