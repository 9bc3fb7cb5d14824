"""The longest book, of 4 MiB: `wake` is stopped while it reads the book, at bytes of the copy's
save and of the checkpoint's, before it tells, and at random instants. The job ends with the figures
of one that nobody stopped."""
import functools
import tempfile

from kill_instants import Killed, try_kinds
from kill_saves import EDGES, try_killed_before_telling, try_stopped_writes
from kill_steps import expect_next, try_stopped_copies, try_untold
from program_books import LONGEST
from program_grown import kill_reading, plan_edited
from program_jobs import job_on
from program_long import FAR, longest_plan

MOST = 40_000  # records in one wake, so that a job has several
RUNS = 5  # that are measured before the kills
# How much of the copy is written when it is stopped: about its ends, in the midst, and where the
# longest book was once at its end.
LENGTHS = (0, 1, 65_536, LONGEST // 2 + 7, LONGEST - 1)


def try_reads(programs, cases, plans):
    """Nothing is touched before the whole book is read."""
    old, new, _ = plans
    for saved, copy in ((None, None), (new.places[FAR], new.book), (old.places[FAR], old.book)):
        for length in (1, LONGEST // 2 + 7, LONGEST):
            kind = "no" if copy is None else "its own" if copy == new.book else "another"
            with cases.case(f"a wake with {kind} copy is killed in its read, after {length}"), \
                    job_on(programs, new.book) as job:
                job.stand(saved, copy)
                before = job.files()
                start = functools.partial(programs.start, *job.args(1))
                kill_reading(job.book, start, length)
                job.expect_kept(before)
                expect_next(job, new, {})


def try_long(programs, cases, _plan, chance, rounds):
    plans = [longest_plan(), plan_edited(7), plan_edited(FAR + 7)]
    try_reads(programs, cases, plans)
    try_stopped_copies(programs, cases, plans, LENGTHS)
    try_stopped_writes(programs, cases, plans[0], FAR, FAR + MOST, EDGES)
    try_untold(programs, cases, plans)
    try_killed_before_telling(programs, cases, plans[0], FAR + 1)
    with tempfile.TemporaryDirectory() as folder:
        killed = Killed(programs, folder, plans, MOST)
        for is_edited in (False, True):
            try_kinds(cases, killed, chance, rounds, is_edited, RUNS)
        with cases.case("the killed job on a long book goes on to its end"):
            killed.end()
        cases.note(f"the killed job on a long book reached its end {killed.ended} times")
