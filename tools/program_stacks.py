"""How much stack each program needs. A program or a thread has 8 MiB where nobody says otherwise,
and each program has to do its longest input with that."""
import pathlib
import resource

from program_annual import ONE
from program_books import CHECKPOINT, MOST_BEHIND, each_line, gas_record
from program_jobs import ALL, job_on
from program_long import mixed
from program_model import DELIVERY, LISTED, answer_of, judged, lines_of, plan_of
from program_months import made
from program_repeats import sent
from program_replay import BLANK, FRESH, RECORD, WAKE, answer, frame
from program_runs import Answer, expect, expect_told, memory_folder

STACK = 8192  # KiB
# KiB of the arrays that each program has on its stack. Whoever does with less wasn't limited.
ARRAYS = {"annual": 64, "lines": 4096, "wake": 4096, "tablet": 4096, "replay": 7680}


def limit_stack(kibibytes):
    """A function for the child, which ends without a core file if the stack doesn't do."""
    def limit():
        resource.setrlimit(resource.RLIMIT_CORE, (0, 0))
        resource.setrlimit(resource.RLIMIT_STACK, (1024 * kibibytes, 1024 * kibibytes))
    return limit


def run_wake(programs, plan, **options):
    with job_on(programs, plan.book) as job:
        return job.wake(ALL, **options)


def run_tablet(programs, plan, **options):
    with memory_folder() as folder:
        pathlib.Path(folder, "a.book").write_bytes(plan.book)
        pathlib.Path(folder, "list").write_text("a.book a.saved\n", encoding="utf-8")
        return programs.run("tablet", "list", ALL, cwd=folder, **options)


def told_by_tablet(plan):
    """One turn, with the end of the book."""
    first, second, *ended = plan.told(0, plan.count).split(b"\n", 2)
    return each_line("a.book ", b"%s %s\n" % (first, second) + b"".join(ended))


def frames_on(plan, told):
    """A call of each depth, with its answer."""
    return [(frame(FRESH, 0, plan.book, b"", BLANK), answer(out=plan.places[0])),
            (frame(WAKE, int(ALL), plan.book, plan.places[0], BLANK),
             answer(count=plan.count, out=plan.places[-1])),
            (frame(RECORD, plan.count - 1, plan.book), answer_of(told[-1]))]


def longest_frames():
    """A right book beside the longest checkpoint, and beside the longest buffer."""
    most = bytes(MOST_BEHIND - len(ONE))
    return [(frame(WAKE, 1, ONE, most[CHECKPOINT:], BLANK), answer(30, out=BLANK)),
            (frame(FRESH, 0, ONE, b"", most), answer(32, out=most))]


def run_frames(programs, calls):
    """A run of `replay` on calls, and what it prints."""
    asked, told = (b"".join(parts) for parts in zip(*calls))
    return lambda **more: programs.run("replay", data=asked, **more), told


def runs_on(programs, plan, told, more_frames=()):
    """Each program but `annual`, a run of it on the book of a plan, and what that prints."""
    return [("lines", lambda **more: programs.run("lines", data=plan.book, **more), lines_of(told)),
            ("wake", lambda **more: run_wake(programs, plan, **more), plan.told(0, plan.count)),
            ("tablet", lambda **more: run_tablet(programs, plan, **more), told_by_tablet(plan)),
            ("replay", *run_frames(programs, [*frames_on(plan, told), *more_frames]))]


def deep_records():
    """A book of 65,536 bytes: deliveries and analysed gas, and hours and anodes, each of which is
    looked for in all records before."""
    records = [DELIVERY, gas_record()] * 500 + [sent(hour) for hour in range(1, 1026)]
    return records + [made(month) for month in range(1, 13)]


def least_stack(run, told):
    """The fewest KiB with which a run prints what it should, or more if it doesn't at STACK."""
    low, high = 0, STACK
    while high - low > 1:
        middle = (low + high) // 2
        is_enough = run(preexec_fn=limit_stack(middle)) == Answer(0, told, b"")
        low, high = (low, middle) if is_enough else (middle, high)
    return high


def try_longest(programs, cases):
    for name, run, told in runs_on(programs, *mixed(), longest_frames()):
        with cases.case(f"{name}: a stack of {STACK} KiB is enough for its longest input"):
            expect_told(run(preexec_fn=limit_stack(STACK)), told)


def try_least(programs, cases):
    """The arrays are as long whatever the input, so that a shorter one tells how much is needed."""
    records = deep_records()
    plan, told = plan_of(records), judged(records, LISTED)
    annual = ("annual", lambda **more: programs.run("annual", data=plan.book, **more), plan.ended)
    for name, run, printed in [annual, *runs_on(programs, plan, told)]:
        with cases.case(f"{name}: how much stack it needs"):
            expect_told(run(preexec_fn=limit_stack(STACK)), printed)
            least = least_stack(run, printed)
            cases.note(f"{name} and its runner work from {least} KiB of stack")
            expect(least > ARRAYS[name], True, "that its arrays are more than no stack")


def try_stacks(programs, cases):
    try_longest(programs, cases)
    try_least(programs, cases)
