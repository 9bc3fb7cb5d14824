"""Every state in which a new start can be stopped that a changed book asks for.

The checkpoint is removed and the folder synced; the copy of the new book is saved under a temporary
name and renamed; then the checkpoint is saved likewise. From each of these states the next wake has
to give the figures of the book that is there: the old one, the new one, or a third.
"""
from kill_saves import STALE, go_on, left_behind, stop_telling, stop_write
from program_books import CHECKPOINT, book, fuel_record, trailer
from program_copy import correct
from program_jobs import COPY, NAME, job_on, plans_by_replay
from program_runs import expect

STALE_COPY = COPY + ".aB3xZ9"  # as mkstemp might name it


def small_plans(programs):
    """Books of one record, short enough to be stopped at each byte of a copy."""
    return plans_by_replay(programs, [book([fuel_record(amount)]) for amount in (1000, 2000, 30)])


def empty_plans(programs):
    """Books that are shorter than a checkpoint: a limit that lets their copy pass stops that."""
    return plans_by_replay(programs, [trailer(0, 0, year) for year in (2010, 2011, 2012)])


def states(old, place, new, end, is_each):
    """Name, checkpoint, copy and temporary file of each state. At first there is nothing."""
    saved, copy = (None, None) if place is None else (old.places[place], old.book)
    made, of = new.places[end], new.book
    yield "nothing done", saved, copy, {}
    yield "the checkpoint removed", None, copy, {}
    for length in lengths_of(of, is_each):
        yield f"{length} bytes of a copy", None, copy, {STALE_COPY: of[:length]}
    yield "the copy renamed", None, of, {}
    for length in lengths_of(made, is_each):
        yield f"{length} bytes of a checkpoint", None, of, {STALE: made[:length]}
    yield "all done", made, of, {}


def lengths_of(content, is_each):
    """Each length that a temporary file may have, or those at the edges of a write."""
    size = len(content)
    return range(size + 1) if is_each else (0, 1, size // 2, size - 1, size)


def expect_next(job, plan, stale):
    """One wake to the end on this book, from whatever stands in the folder."""
    files = job.files()
    saved, copy = files.get(NAME), files.get(COPY)
    job.book.write_bytes(plan.book)
    is_its_own = saved is not None and copy == plan.book
    place = plan.places.index(saved) if is_its_own else 0
    err = job.changed() if copy not in (None, plan.book) else b""
    go_on(job, plan, place, stale, err)


def try_states(programs, cases, plans, place, end, is_each=False):
    """Where each length is tried, the job goes on with the three books in turn, else with all."""
    old, new, _ = plans
    for turn, (name, saved, copy, stale) in enumerate(states(old, place, new, end, is_each)):
        for number in [turn % 3] if is_each else range(3):
            with cases.case(f"{name} of {len(new.book)} from {place}, then book {number}"), job_on(
                    programs, new.book) as job:
                job.stand(saved, copy)
                for temporary, content in stale.items():
                    (job.folder / temporary).write_bytes(content)
                expect_next(job, plans[number], stale)


def try_stopped_copies(programs, cases, plans, lengths):
    """The same states with a part of a copy, reached by a program that is stopped at these bytes.
    The job goes on with the three books in turn."""
    old, new, _ = plans
    for turn, length in enumerate(lengths):
        plan = plans[turn % 3]
        with cases.case(f"the save of a copy is killed after {length} bytes"), job_on(
                programs, new.book, old.places[1], old.book) as job:
            answer = stop_write(job, 1, length)
            expect(answer.err.startswith(job.changed()), True, f"that {answer.err!r} says why")
            stale = left_behind(job)
            expect(list(stale.values()), [new.book[:length]], "what it left behind")
            expect(job.files(), {"book": new.book, COPY: old.book, **stale}, "the folder")
            expect_next(job, plan, stale)


def try_stopped_checkpoints(programs, cases, plans):
    """The copy is renamed, and the save of the checkpoint is stopped at each byte behind it."""
    old, new, _ = plans
    for length in range(len(new.book), CHECKPOINT):
        plan = plans[length % 3]
        with cases.case(f"the checkpoint of a new start is killed after {length} bytes"), job_on(
                programs, new.book, old.places[0], old.book) as job:
            stop_write(job, 1, length)
            stale = left_behind(job)
            expect(list(stale.values()), [new.places[0][:length]], "what it left behind")
            expect(job.files(), {"book": new.book, COPY: new.book, **stale}, "the folder")
            expect_next(job, plan, stale)


def try_untold(programs, cases, plans):
    old, new, _ = plans
    for number, plan in enumerate(plans):
        with cases.case(f"a new start is killed before it tells, then book {number}"), job_on(
                programs, new.book, old.places[1], old.book) as job:
            stop_telling(job, 1)
            job.expect_saved(new.places[1])
            expect_next(job, plan, {})


def try_steps(programs, cases, plan):
    small, empty = small_plans(programs), empty_plans(programs)
    books = [plan.book, correct(plan.book, 7), correct(plan.book, 200)]
    plant = plans_by_replay(programs, books)
    for place, end in ((1, 1), (0, 0), (None, 1)):
        try_states(programs, cases, small, place, end)
    try_states(programs, cases, small, 1, 1, is_each=True)
    try_states(programs, cases, plant, 100, 50)
    try_stopped_copies(programs, cases, small, range(len(small[1].book)))
    try_stopped_checkpoints(programs, cases, empty)
    try_untold(programs, cases, small)
