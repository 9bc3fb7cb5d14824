"""Every state in which the save of a checkpoint can be stopped, and what a job makes of it.

A save makes a temporary file beside the checkpoint, writes the new one to it, syncs it, renames it
over the checkpoint and syncs the folder. Stopped anywhere, it leaves the old checkpoint or none,
perhaps with bytes of the new one in a temporary file, or else the new checkpoint. Each of these
states is set up, and those with a part of the bytes are reached by a stopped program too: a limit
on the size of files ends it by a signal within its write, at any byte.
"""
import resource
import signal
import tempfile

from program_books import CHECKPOINT
from program_jobs import ALL, COPY, NAME, job_on
from program_runs import Wrong, ended_by, expect

STALE = NAME + ".aB3xZ9"  # as mkstemp might name it
EVERY, EDGES = range(CHECKPOINT), (0, 1, CHECKPOINT // 2, CHECKPOINT - 1)
FULL = 1 << 24  # bytes: more than any book has
# Where the stopped wake started, and where it would have ended: the first, one between, the last.
# With one of them each length of a temporary file is tried.
WAKES = [(None, 50, EDGES), (100, 150, EVERY), (250, 282, EDGES)]


def states(plan, start, end, lengths):
    """Gives the name, the checkpoint and the temporary file of each state of one save."""
    old = None if start is None else plan.places[start]
    new = plan.places[end]
    yield "no temporary file", old, None
    for length in lengths:
        yield f"{length} bytes of a temporary file", old, new[:length]
    yield "a whole temporary file, not renamed", old, new
    yield "renamed", new, None


def try_states(programs, cases, plan):
    for start, end, lengths in WAKES:
        for name, saved, stale in states(plan, start, end, lengths):
            with cases.case(f"a save from {start} to {end} is stopped with {name}"), job_on(
                    programs, plan.book, saved, plan.book) as job:
                if stale is not None:
                    (job.folder / STALE).write_bytes(stale)
                place = (start or 0) if saved != plan.places[end] else end
                go_on(job, plan, place, {STALE: stale} if stale is not None else {})


def go_on(job, plan, place, stale, err=b""):
    """The job goes on from a place to its end. What a stopped wake left behind stays as it is."""
    place = job.expect_woken(plan, place, ALL, stale=stale, err=err)
    expect(place, plan.count, "the last place")
    for name, content in stale.items():
        expect((job.folder / name).read_bytes(), content, f"the temporary file {name}")


def limit_files(size, is_told):
    """For the child: no file grows past so many bytes. It is told by an error, or stopped."""
    def limit():
        resource.setrlimit(resource.RLIMIT_CORE, (0, 0))
        resource.setrlimit(resource.RLIMIT_FSIZE, (size, size))
        signal.signal(signal.SIGXFSZ, signal.SIG_IGN if is_told else signal.SIG_DFL)
    return limit


def left_behind(job):
    """The temporary files in the folder, by name."""
    files = job.files()
    return {name: files[name] for name in files if name not in ("book", NAME, COPY)}


def expect_stopped(answer):
    """The limit on the size of files ended it before it told anything."""
    if not ended_by(answer, signal.SIGXFSZ) or answer.out:
        raise Wrong(f"the limit didn't stop it: {answer}")


def stop_write(job, budget, length):
    """A wake that is ended within a write, after so many bytes of the file."""
    answer = job.wake(budget, preexec_fn=limit_files(length, is_told=False))
    expect_stopped(answer)
    return answer


def run_untold(run, budget):
    """A run that the first byte that it prints stops: its output is a file that has all the bytes
    that a file may have. What it saves comes nowhere near that limit."""
    with tempfile.TemporaryFile() as full:
        full.truncate(FULL)
        full.seek(FULL)
        answer = run(budget, stdout=full, preexec_fn=limit_files(FULL, is_told=False))
    expect_stopped(answer)
    return answer


def stop_telling(job, budget):
    return run_untold(job.wake, budget)


def try_stopped_writes(programs, cases, plan, start, end, lengths):
    for length in lengths:
        with cases.case(f"a save from {start} to {end} is killed after {length} bytes"), job_on(
                programs, plan.book, plan.places[start]) as job:
            stop_write(job, end - start, length)
            stale = left_behind(job)
            expect(list(stale.values()), [plan.places[end][:length]], "what it left behind")
            job.expect_saved(plan.places[start], *stale)
            go_on(job, plan, start, stale)


def try_killed_before_telling(programs, cases, plan, end):
    with cases.case(f"a wake to {end} is killed after its save, before it tells"), job_on(
            programs, plan.book) as job:
        stop_telling(job, end)
        job.expect_saved(plan.places[end])
        go_on(job, plan, end, {})


def try_saves(programs, cases, plan):
    try_states(programs, cases, plan)
    try_stopped_writes(programs, cases, plan, *WAKES[1])
    try_killed_before_telling(programs, cases, plan, 50)
