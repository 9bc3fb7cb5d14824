"""The order of a wake's calls. A process that was killed loses nothing that it wrote, so no kill
shows whether a save waits for the disk, and in which order: only the calls do."""
import os
import pathlib
import re
import shutil
import subprocess

from program_copy import correct
from program_jobs import COPY, NAME, job_on
from program_runs import expect, memory_folder

CALLS = ("open openat creat write writev pwrite64 fsync fdatasync close rename renameat renameat2"
         " unlink unlinkat")
TRACED = ["strace", "-ff", "-e", "trace=" + ",".join(f"?{call}" for call in CALLS.split()), "-o"]
CALL = re.compile(r'(\w+)\((.*)\) += (\d+)')

SAVE_COPY = ["make a copy", "write a copy", "sync a copy", "a copy becomes the copy", "sync folder"]
SAVE = ["make a checkpoint", "write a checkpoint", "sync a checkpoint",
        "a checkpoint becomes the checkpoint", "sync folder"]
REMOVE = ["remove the checkpoint", "sync folder"]
LOOK, SAY, TELL = ["look at the copy", "look at the checkpoint"], ["say"], ["tell"]
# What there is, by its place and whether the copy is the book's, another or none; `fresh` or not.
ORDERS = {
    "a first wake": (None, None, [], SAVE_COPY + SAVE + TELL),
    "a wake": (100, "its own", [], LOOK + SAVE + TELL),
    "a wake that finds no copy": (100, None, [], SAVE_COPY + SAVE + TELL),
    "a changed book": (100, "another", [], LOOK + SAY + REMOVE + SAVE_COPY + SAVE + TELL),
    "a changed book without a checkpoint": (None, "another", [], SAY + SAVE_COPY + SAVE + TELL),
    "fresh": (100, "its own", ["fresh"], REMOVE + SAVE_COPY + SAVE + TELL),
    "fresh and a changed book": (100, "another", ["fresh"], REMOVE + SAVE_COPY + SAVE + TELL),
    "fresh without a copy": (100, None, ["fresh"], REMOVE + SAVE_COPY + SAVE + TELL),
}


def can_trace():
    probe = ["strace", "-o", "/dev/null", "true"]
    return shutil.which("strace") and not subprocess.run(
        probe, capture_output=True, check=False).returncode


def kind_of(path, folder):
    """What a path is to the job, or None."""
    if os.path.realpath(path) == os.path.realpath(folder):
        return "folder"
    name = os.path.basename(path)
    if re.fullmatch(rf"{COPY}\.\w{{6}}", name):
        return "a copy"
    if re.fullmatch(rf"{NAME}\.\w{{6}}", name):
        return "a checkpoint"
    return {NAME: "the checkpoint", COPY: "the copy"}.get(name)


def steps_of(trace, folder):
    """What the calls do to the job's files and to the outputs, in words."""
    opened = {"1": "tell", "2": "say"}
    for call, args, result in CALL.findall(trace):
        paths = [kind_of(path, folder) for path in re.findall(r'"([^"]*)"', args)]
        number = args.split(",")[0]
        if "open" in call and paths[0]:
            opened[result] = paths[0]
            if paths[0] != "folder":
                yield ("make " if "O_EXCL" in args else "look at ") + paths[0]
        elif call == "close":
            opened.pop(number, None)
        elif "write" in call and number in opened:
            yield "write " * (number not in ("1", "2")) + opened[number]
        elif "sync" in call:
            yield f"sync {opened.get(number, 'something else')}"
        elif "rename" in call:
            yield f"{paths[0]} becomes {paths[1]}"
        elif "unlink" in call:
            yield f"remove {paths[0]}"


def trace_wake(job, folder, *more):
    """The steps of a wake, each once where it takes several calls."""
    tracing = type(job.programs)([*TRACED, f"{folder}/log", *job.programs.command])
    tracing.run(*job.args(50, *more))
    traces = [path.read_text(encoding="utf-8", errors="replace")
              for path in pathlib.Path(folder).iterdir()]
    steps = [step for trace in traces if NAME in trace for step in steps_of(trace, job.folder)]
    return [step for i, step in enumerate(steps) if i == 0 or step != steps[i - 1]]


def try_order_of_calls(programs, cases, plan):
    if not can_trace():
        cases.note("the order of the save's calls is left out: no strace, or it may not trace here")
        return
    copies = {None: None, "its own": plan.book, "another": correct(plan.book)}
    for name, (place, copy, more, wanted) in ORDERS.items():
        with cases.case(f"the calls of {name}"), job_on(programs, plan.book) as job:
            job.stand(None if place is None else plan.places[place], copies[copy])
            with memory_folder() as logs:
                steps = trace_wake(job, logs, *more)
            if place is None and "sync folder" in steps[:steps.index("make a copy")]:
                steps.remove("sync folder")  # Nothing was there to be removed.
            looks = [step for step in steps if step.startswith("look")]
            if wanted[:2] == LOOK:
                # Beside another wake, a checkpoint that is read before the copy may be the old one.
                expect(looks[-2:], LOOK, "what it looks at, in this order")
            expect([step for step in steps if step not in looks],
                   [step for step in wanted if step not in LOOK], "what it does")
