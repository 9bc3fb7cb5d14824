"""Saves and reports that fail: the job's files stay as they were, and standard error says why. Only
where a new start has removed the checkpoint of another book does it stay removed."""
import contextlib
import os
import pathlib
import resource
import shutil
import subprocess
import tempfile

from kill_saves import go_on, limit_files
from program_books import CHECKPOINT
from program_copy import correct
from program_jobs import COPY, NAME, job_on, plans_by_replay
from program_runs import FAILED, ROOT, Programs, expect, expect_answer, expect_failure, expect_told

NOBODY = 65534
FULL_OUTPUT = b"standard output (the checkpoint is saved): No space left on device\n"


def try_full_output(programs, cases, plan):
    for name, saved, budget, end in (("the first", None, 50, 50), ("the last", 100, 500, 282)):
        with cases.case(f"standard output is full at {name} wake, which is saved"), job_on(
                programs, plan.book, None if saved is None else plan.places[saved]) as job:
            with open("/dev/full", "wb") as full:
                expect_answer(job.wake(budget, stdout=full), FAILED, None, FULL_OUTPUT)
            job.expect_saved(plan.places[end])
            go_on(job, plan, end, {})
    with cases.case("standard output is full at a new start, which is saved"), job_on(
            programs, plan.book, plan.places[282], correct(plan.book)) as job:
        with open("/dev/full", "wb") as full:
            told = job.changed() + FULL_OUTPUT
            expect_answer(job.wake(50, stdout=full), FAILED, None, told)
        job.expect_saved(plan.places[50])


def expect_unsaved(job, *more, **options):
    """A wake that can't save: one line, no output, every file as it was."""
    before = job.files()
    expect_failure(job.wake(50, *more, **options), NAME.encode() + b": ")
    job.expect_kept(before)


def try_file_limits(programs, cases, plan):
    for size in (0, 1, CHECKPOINT // 3, CHECKPOINT // 2, CHECKPOINT - 1):
        for place in (0, 100):
            with cases.case(f"a save from {place} finds room for {size} bytes alone"), job_on(
                    programs, plan.book, plan.places[place]) as job:
                expect_unsaved(job, preexec_fn=limit_files(size, is_told=True))
                go_on(job, plan, place, {})


def try_copy_limits(programs, cases, plan):
    """There is no room for the copy: nothing is begun, or a new start is, and it goes on later."""
    other = plans_by_replay(programs, [correct(plan.book)])[0]
    words = "{}: File too large\n"
    for size in (0, 1, CHECKPOINT, len(plan.book) - 1):
        limit = limit_files(size, is_told=True)
        for place in (None, 100):
            with cases.case(f"a first copy, from {place}, finds room for {size} bytes"), job_on(
                    programs, plan.book) as job:
                job.stand(None if place is None else plan.places[place], None)
                before = job.files()
                expect_answer(job.wake(50, preexec_fn=limit), FAILED, b"",
                              words.format(job.copy).encode())
                job.expect_kept(before)
                go_on(job, plan, place or 0, {})
        for following in (plan, other):
            with cases.case(f"a new start's copy finds room for {size} bytes"), job_on(
                    programs, plan.book, other.places[100], other.book) as job:
                told = job.changed() + words.format(job.copy).encode()
                expect_answer(job.wake(50, preexec_fn=limit), FAILED, b"", told)
                job.expect_kept({"book": plan.book, COPY: other.book})
                job.book.write_bytes(following.book)
                go_on(job, following, 0, {}, job.changed() if following is plan else b"")


@contextlib.contextmanager
def small_device(pages):
    """A file system of a few pages, or None where none may be mounted."""
    with tempfile.TemporaryDirectory() as folder:
        options = ["mount", "-t", "tmpfs", "-o", f"size={4 * pages}k,mode=755", "none", folder]
        is_mounted = shutil.which("mount") and not subprocess.run(
            options, capture_output=True, check=False).returncode
        try:
            yield folder if is_mounted else None
        finally:
            if is_mounted:
                subprocess.run(["umount", folder], check=True)


def try_full_device(programs, cases, plan):
    pages = 1 + (len(plan.book) + 4095) // 4096  # Checkpoint and copy take all that there are.
    with small_device(pages) as folder:
        if folder is None:
            cases.note("a full device is left out: no file system can be mounted here")
            return
        with cases.case("the device is full, and a wake can't save"), job_on(
                programs, plan.book) as job:
            job.saved, job.copy = pathlib.Path(folder) / NAME, pathlib.Path(folder) / COPY
            job.stand(plan.places[100], plan.book)
            expect_failure(job.wake(50), NAME.encode() + b": No space left on device")
            expect(sorted(os.listdir(folder)), [NAME, COPY], "the device")
            expect(job.saved.read_bytes(), plan.places[100], "the checkpoint")
            expect(job.copy.read_bytes(), plan.book, "the copy")
            # Whoever asks for a new start has no use for the checkpoint, which goes first.
            expect_failure(job.wake(50, "fresh"), COPY.encode() + b": No space left on device")
            expect(os.listdir(folder), [COPY], "the device")
            expect(job.copy.read_bytes(), plan.book, "the copy")


def try_folder(programs, cases, plan):
    for more in ([], ["fresh"]):
        with cases.case(f"a folder stands where CHECKPOINT should be {more}"), job_on(
                programs, plan.book) as job:
            job.saved.mkdir()
            (job.saved / "inside").write_bytes(b"kept")
            expect_unsaved(job, *more)
            expect((job.saved / "inside").read_bytes(), b"kept", "the file inside")


def give_up_root():
    """For the child: no permission is overruled. An ordinary user stays who he is."""
    resource.setrlimit(resource.RLIMIT_CORE, (0, 0))
    if os.geteuid() == 0:
        os.setgroups([])
        os.setgid(NOBODY)
        os.setuid(NOBODY)


@contextlib.contextmanager
def programs_for_nobody(programs):
    """The repository may stand where only root looks, so nobody runs a copy of what is built."""
    if os.geteuid() != 0 or programs.command != [str(ROOT / "tools/program")]:
        yield programs
        return
    with tempfile.TemporaryDirectory() as folder:
        home = pathlib.Path(folder)
        for path in ("tools/program", "crates/wake/out/wake"):
            (home / path).parent.mkdir(parents=True)
            shutil.copy(ROOT / path, home / path)
        for path in (home, *home.rglob("*")):
            path.chmod(0o755)
        yield Programs([str(home / "tools/program")])


@contextlib.contextmanager
def modes(wanted):
    """Sets modes by path for a while: a folder that can't be written can't be cleared either."""
    before = {path: os.stat(path).st_mode & 0o7777 for path in wanted}
    for path, mode in wanted.items():
        os.chmod(path, mode)
    try:
        yield
    finally:
        for path, mode in reversed(before.items()):  # A folder that leads to others comes last.
            os.chmod(path, mode)


# What may not be used, the modes of the folder and of what is in it, and who is named. From None
# there is neither checkpoint nor copy.
FORBIDDEN = [
    ("the folder is read-only", 100, {".": 0o555}, NAME),
    ("the folder is read-only", None, {".": 0o555}, COPY),
    ("the folder may not be searched", 100, {".": 0o600}, "book"),
    ("the folder may not be searched", None, {".": 0o600}, "book"),
    ("the checkpoint may not be read", 100, {".": 0o777, NAME: 0o000}, NAME),
    ("the copy may not be read", 100, {".": 0o777, COPY: 0o000}, COPY),
    ("the book may not be read", 100, {".": 0o777, "book": 0o000}, "book"),
    ("the book may not be read", None, {".": 0o777, "book": 0o000}, "book"),
]


def forbid(job, wanted):
    """Modes of the folder's files, which anybody may read where nothing else is wanted."""
    for name in job.files().keys() - wanted.keys():
        (job.folder / name).chmod(0o644)
    return modes({job.folder / name: wanted[name] for name in sorted(wanted, reverse=True)})


def try_permissions(programs, cases, plan):
    with programs_for_nobody(programs) as ours:
        for name, place, wanted, named in FORBIDDEN:
            with cases.case(f"{name}, from {place}"), job_on(
                    ours, plan.book, None if place is None else plan.places[place]) as job:
                before = job.files()
                with forbid(job, wanted):
                    answer = job.wake(50, preexec_fn=give_up_root, cwd="/")
                expect_failure(answer, f"/{named}: Permission denied".encode())
                job.expect_kept(before)
        with cases.case("the folder is read-only, and the book has changed"), job_on(
                ours, plan.book, plan.places[100], correct(plan.book)) as job:
            before = job.files()
            with forbid(job, {".": 0o555}):
                answer = job.wake(50, preexec_fn=give_up_root, cwd="/")
            told = job.changed() + f"{job.saved}: Permission denied\n".encode()
            expect_answer(answer, FAILED, b"", told)
            job.expect_kept(before)


def try_allowed(programs, cases, plan):
    """The same user may save where he may write: so it was the permission that was missing."""
    with programs_for_nobody(programs) as ours, cases.case("nothing is forbidden"), job_on(
            ours, plan.book) as job:
        with forbid(job, {".": 0o777}):
            expect_told(job.wake(50, preexec_fn=give_up_root, cwd="/"), plan.told(0, 50))
            job.expect_saved(plan.places[50])


def try_failures(programs, cases, plan):
    try_full_output(programs, cases, plan)
    try_file_limits(programs, cases, plan)
    try_copy_limits(programs, cases, plan)
    try_full_device(programs, cases, plan)
    try_folder(programs, cases, plan)
    try_permissions(programs, cases, plan)
    try_allowed(programs, cases, plan)
