"""Two wakes at once from one place, on one book: it may be another than before."""
import collections
import contextlib
import os
import subprocess
import tempfile

from kill_instants import MOST, edited_plans, expect_paired, look_at_pair
from program_annual import await_reading
from program_jobs import ALL, Job
from program_runs import PATIENCE, Wrong, expect, kill, memory_folder, turns

EDITED = 3  # Every third round finds another book.


def start_held(job, budget, pipe):
    """Starts a wake whose book is a pipe: it holds the whole book, and ends when it is closed."""
    os.mkfifo(pipe)
    held = os.open(pipe, os.O_RDWR)
    os.write(held, job.book.read_bytes())
    process = job.programs.start("wake", pipe, str(job.saved), str(budget), stdout=subprocess.PIPE,
                                 stdin=subprocess.DEVNULL, stderr=subprocess.PIPE)
    return process, held


@contextlib.contextmanager
def started_together(job, budgets):
    """Starts wakes that all wait for the end of their book, and lets them go at one instant."""
    with memory_folder() as folder:
        pipes = [f"{folder}/{turn}" for turn in range(len(budgets))]
        starts = [start_held(job, budget, pipe) for budget, pipe in zip(budgets, pipes)]
        try:
            try:
                for process, held in starts:
                    await_reading(process, held)
            finally:
                for _, held in starts:
                    os.close(held)
            yield [process for process, _ in starts], pipes
        finally:
            for process, _ in starts:
                kill(process)


def watch(job, processes, allowed, plans):
    """Looks at the checkpoint for as long as both run, and gives what they print."""
    for _ in turns():
        pair = look_at_pair(job)
        expect_paired(pair, plans)
        if pair[0] not in allowed:
            raise Wrong(f"a look finds the checkpoint {pair[0]!r}")
        if None not in [process.poll() for process in processes]:
            return [process.communicate(timeout=PATIENCE) for process in processes]


def expect_said(job, told, pipes, is_changed):
    """One at least says that the book has changed: it is the one that found the old copy."""
    lines = [job.changed(pipe) for pipe in pipes]
    for (_, err), line in zip(told, lines):
        expect(err in ([b"", line] if is_changed else [b""]), True, f"that {err!r} may be said")
    expect(any(err for _, err in told), is_changed, "whether one says that the book has changed")


def wakes_at_once(job, plans, plan, place, budgets):
    """Two wakes from one place. Gives the new place, and whether neither saw the other's save."""
    ends = [place + plan.moved(place, budget) for budget in budgets]
    both = place + plan.moved(place, sum(budgets))
    saved, copy = look_at_pair(job)
    is_changed = copy not in (None, plan.book)
    allowed = [plan.places[end] for end in (*ends, both)] + [saved] + [None] * is_changed
    with started_together(job, budgets) as (processes, pipes):
        told = watch(job, processes, allowed, plans)
    expect([process.wait() for process in processes], [0, 0], "how the two ended")
    expect_said(job, told, pipes, is_changed)
    firsts = [plan.told(place, budget) for budget in budgets]
    seconds = [plan.told(end, budget) for end, budget in zip(reversed(ends), budgets)]
    outs = [out for out, _ in told]
    is_apart = outs == firsts
    if not is_apart and outs not in ([firsts[0], seconds[1]], [seconds[0], firsts[1]]):
        raise Wrong(f"the two from {place} with {budgets} tell {outs}")
    saved = job.look()
    possible = ends if is_apart else [both]
    is_theirs = saved in [plan.places[end] for end in possible]
    expect(is_theirs, True, "that the checkpoint is of one of the two")
    job.expect_saved(saved)
    return plan.places.index(saved), is_apart


def try_two(programs, cases, plan, chance, rounds):
    met, plans = collections.Counter(), edited_plans(programs, plan)
    with tempfile.TemporaryDirectory() as folder:
        job, place = Job(programs, folder, plan.book), 0
        for turn in range(rounds):
            if turn % EDITED == EDITED - 1:
                plan, place = plans[(1 + turn // EDITED) % len(plans)], 0
                job.book.write_bytes(plan.book)
            budgets = chance.sample(range(1, MOST), 2)
            with cases.case(f"two wakes at once, round {turn}, from {place} with {budgets}"):
                start, place = place, plan.count  # A round that fails is the last of its job.
                place, is_apart = wakes_at_once(job, plans, plan, start, budgets)
                met[is_apart] += 1
            if place == plan.count:
                job.clear()
                place = 0
        with cases.case("after two wakes at once the job goes on to its end"):
            job.expect_woken(plan, place, ALL)
        with cases.case("some two wakes at once started from one place"):
            expect(met[True] > 0, True, "that some did")
    cases.note(f"{rounds} rounds of two wakes at once: in {met[True]} both started from one place")
