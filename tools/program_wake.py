"""What `wake` prints and saves, and what it leaves alone."""
import os

from program_annual import EXAMPLE, ONE, P1_MASSES, REFUSED
from program_books import CHECKPOINT, LINE, TONNE, book, checkpoint, fuel_record, patch, trailer
from program_books import unit_line
from program_jobs import ALL, NAME, job_on, plan_by_lines, plan_plant
from program_runs import FAILED, MISUSED, ROOT, TURNED_AWAY, expect, expect_answer, expect_failure
from program_runs import expect_told, memory_folder

USAGE = b"usage: wake BOOK CHECKPOINT BUDGET [fresh]\n"
HINT = "{} isn't this book's checkpoint; wake BOOK CHECKPOINT BUDGET fresh starts anew\n"
LEFT = "{}: neither empty nor as long as a checkpoint, so it is left as it is\n"
BEGUN = checkpoint(ONE)
DONE = checkpoint(ONE, 1, P1_MASSES)
SOUND = checkpoint(ONE, 1, P1_MASSES, aside=1, first=0, reason=8)
SCHEDULES = [["282"], ["100", "100", "100"], ["0", "1", "280", "0", "1"], ["1", ALL], ["281", "2"],
             ["007", "0000000000000000000000275"], ["99999999", "5"]]
# None of these is a budget, which is digits alone and at most 2^32 - 1.
NO_BUDGETS = ["12x", "x12", "", "-1", "+1", " 1", "1 ", "1.0", "0x10", "4294967296",
              "18446744073709551617", "9" * 5000]


def damage(at, new, base=SOUND):
    return patch(base, at, new)


# Checkpoints that aren't this book's, by number: 30 is told by the length alone.
STRANGE = {
    "an empty one": (30, b""),
    "one less a byte": (30, DONE[:-1]),
    "one and a byte": (30, DONE + b"\0"),
    "one of 4,000 bytes": (30, bytes(4000)),
    "zero bytes alone": (31, bytes(CHECKPOINT)),
    "one of another book": (31, checkpoint(ONE + bytes(LINE))),
    "one of another year": (31, checkpoint(book(year=2011))),
    "more done than there are records": (31, damage(0, b"\2")),
    "more set aside than done": (31, damage(4, b"\2")),
    "a first one set aside that isn't done": (31, damage(8, b"\1")),
    "reason 0 of a record set aside": (31, damage(12, b"\0")),
    "reason 9": (31, damage(12, b"\x09")),
    "a reason with none set aside": (31, damage(12, b"\1", DONE)),
    "an index with none set aside": (31, damage(8, b"\1", DONE)),
    "4,000,001 tonnes of one record": (31, checkpoint(ONE, 1, (4_000_001 * TONNE, 0, 0, 0))),
    "a rest of a tonne": (31, damage(24, TONNE.to_bytes(8, "little"))),
    "a rest of a tonne in the last ledger": (31, damage(72, TONNE.to_bytes(8, "little"))),
    "byte 13": (31, damage(13, b"\1")),
    "byte 15": (31, damage(15, b"\1")),
    "byte 86": (31, damage(86, b"\1")),
    "byte 95": (31, damage(95, b"\x80")),
}


def try_jobs(programs, cases, plan):
    for budgets in SCHEDULES:
        with cases.case(f"wake: a job in wakes of {budgets}"), job_on(programs, plan.book) as job:
            place = 0
            for budget in budgets:
                place = job.expect_woken(plan, place, budget)
            expect(place, plan.count, "the last place")
            job.expect_woken(plan, place, 5)
    with cases.case("wake: budget 0 saves a fresh start"), job_on(programs, ONE) as job:
        expect_told(job.wake(0), b"moved 0\ndone 0 of 1\n")
        job.expect_saved(BEGUN)
    with cases.case("wake: a book with no records ends at once"), job_on(
            programs, trailer(0, 0)) as job:
        job.expect_woken(plan_by_lines(programs, trailer(0, 0)), 0, 0)
    large = book([fuel_record(unit=1), fuel_record()], [unit_line(rating=2501)])
    with cases.case("wake: records set aside"), job_on(programs, large) as job:
        expect_told(job.wake(1), b"moved 1\ndone 1 of 2\n")
        expect_told(job.wake(1), b"moved 1\ndone 2 of 2\nrefused 41 record 0 reason 6\n")
        job.expect_saved(checkpoint(large, 2, aside=2, reason=6))


def try_names(programs, cases):
    """CHECKPOINT as a word: where the program runs, below it, and as long as a name may be."""
    # The name of the copy's temporary file is 12 bytes longer.
    with memory_folder() as folder:
        longest = os.pathconf(folder, "PC_NAME_MAX") - len(".book.XXXXXX")
    for name in ["ours", "./ours", "sub/ours", "sub/../ours", "-ours", "a b\n", "n" * longest]:
        with cases.case(f"wake: CHECKPOINT is {name[:20]!r}"), job_on(programs, ONE) as job:
            (job.folder / "sub").mkdir()
            for more in ([], ["fresh"]):
                answer = programs.run("wake", "book", name, "1", *more, cwd=job.folder)
                expect_told(answer, b"moved 1\ndone 1 of 1\n" + EXAMPLE)
            path = job.folder / name
            expect(path.read_bytes(), DONE, "the checkpoint")
            expect((path.parent / f"{path.name}.book").read_bytes(), ONE, "the copy")
            expect(sorted(os.listdir(path.parent)), sorted({path.name, f"{path.name}.book"} | (
                {"book", "sub"} if path.parent.name != "sub" else set())), "the folder")
    names = ["gone/ours", "book/ours", "sub", "sub/"] + [
        "n" * (longest + more) for more in (1, 5, 7, 8, 12, 13)]
    for name in names:
        with cases.case(f"wake: CHECKPOINT can't be {name[:20]!r} of {len(name)} bytes"), job_on(
                programs, ONE) as job:
            (job.folder / "sub").mkdir()
            before = job.files()
            for more in ([], ["fresh"]):
                answer = programs.run("wake", "book", name, "1", *more, cwd=job.folder)
                expect_failure(answer, b": ")
                expect(answer.err.startswith(name.encode()), True, f"that {name!r} is named")
                job.expect_kept(before)
            expect(os.listdir(job.folder / "sub"), [], "the folder below")


def try_arguments(programs, cases):
    wrong = {"none": [], "one": ["book"], "two": ["book", NAME], "five": [
        "book", NAME, "1", "fresh", "fresh"]}
    wrong |= {f"a fourth that is {word!r}": ["book", NAME, "1", word]
              for word in ("", "Fresh", "fres", "freshly", "fresh ", "1")}
    wrong |= {f"budget {word[:24]!r}": ["book", NAME, word] for word in NO_BUDGETS}
    # The copy beside it would have a name, and the checkpoint none.
    wrong |= {f"an empty CHECKPOINT {more}": ["book", "", "1", *more] for more in ([], ["fresh"])}
    told = dict.fromkeys(wrong, USAGE)
    long_ones = {"BOOK": (["b" * 4096, NAME, "1"], 4095),
                 "CHECKPOINT": (["book", "c" * 4084, "1"], 4083)}
    for word, (args, most) in long_ones.items():
        for more in ([], ["fresh"]):
            name = f"a {word} of {most + 1} bytes {more}"
            wrong[name] = args + more
            told[name] = f"wake: {word} is longer than {most} bytes\n".encode()
    for name, args in wrong.items():
        with cases.case(f"wake: wrong arguments, {name}"), job_on(programs, ONE) as job:
            before = job.files()
            expect_answer(programs.run("wake", *args, cwd=job.folder), MISUSED, b"", told[name])
            job.expect_kept(before)


def try_long_paths(programs, cases):
    """Paths as long as they may be, though all but a few of their bytes are slashes."""
    for word, most in (("BOOK", 4095), ("CHECKPOINT", 4083)):
        with cases.case(f"wake: a {word} of {most} bytes"), job_on(programs, ONE) as job:
            path = "." + word.rjust(most - 1, "/")
            args = [path, NAME] if word == "BOOK" else ["book", path]
            (job.folder / "BOOK").write_bytes(ONE)
            answer = programs.run("wake", *args, "1", cwd=job.folder)
            expect_told(answer, b"moved 1\ndone 1 of 1\n" + EXAMPLE)
            saved = job.folder / (NAME if word == "BOOK" else word)
            expect(saved.read_bytes(), DONE, "the checkpoint")


def try_checkpoints(programs, cases):
    with cases.case("wake: the checkpoint that is damaged below is sound"), job_on(
            programs, ONE, SOUND) as job:
        expect_told(job.wake(1), b"moved 0\ndone 1 of 1\nrefused 41 record 0 reason 8\n")
    for name, (number, saved) in STRANGE.items():
        for copy in (ONE, None):
            kind = "" if copy else ", without a copy"
            with cases.case(f"wake: {name} is refused with {number}{kind}"), job_on(
                    programs, ONE) as job:
                job.stand(saved, copy)
                before = job.files()
                for budget in (0, ALL):
                    expect_answer(job.wake(budget), TURNED_AWAY, f"refused {number}\n".encode(),
                                  HINT.format(job.saved).encode())
                    job.expect_kept(before)
        with cases.case(f"wake: fresh, and {name} is there"), job_on(programs, ONE, saved) as job:
            expect_replaced(job, saved, "fresh")


def expect_replaced(job, saved, *more, err=b""):
    """A new start on the book ONE. It takes the place of nothing but a checkpoint or no bytes."""
    before, answer = job.files(), job.wake(1, *more)
    if len(saved) in (0, CHECKPOINT):
        expect_told(answer, b"moved 1\ndone 1 of 1\n" + EXAMPLE, err)
        job.expect_saved(DONE)
    else:
        expect_answer(answer, FAILED, b"", LEFT.format(job.saved).encode())
        job.expect_kept(before)


def try_books(programs, cases, plan):
    for name, (number, of) in REFUSED.items():
        with cases.case(f"wake: of a book, {name} is refused with {number}"):
            for saved, copy in ((None, None), (DONE, ONE), (DONE, of), (b"strange", None)):
                with job_on(programs, of) as job:
                    job.stand(saved, copy)
                    before = job.files()
                    for more in ([], ["fresh"]):
                        expect_told(job.wake(1, *more), f"refused {number}\n".encode())
                        job.expect_kept(before)
    with cases.case("wake: a refused book, and standard output is full"), job_on(
            programs, b"") as job, open("/dev/full", "wb") as full:
        expect_answer(job.wake(1, stdout=full), FAILED, None,
                      b"standard output: No space left on device\n")
        job.expect_kept({"book": b""})
    with cases.case("wake: fresh on a job that is under way"), job_on(programs, plan.book) as job:
        job.expect_woken(plan, 0, 100)
        job.expect_woken(plan, 0, 30, "fresh")


def try_missing(programs, cases):
    for name in ("gone", "", "folder", "book/", "gone/book"):
        with cases.case(f"wake: BOOK can't be {name!r}"), job_on(programs, ONE, BEGUN) as job:
            (job.folder / "folder").mkdir()
            before = job.files()
            for more in ([], ["fresh"]):
                answer = programs.run("wake", name, NAME, "1", *more, cwd=job.folder)
                expect_failure(answer, name.encode() + b": ")
                job.expect_kept(before)


def try_wake(programs, cases):
    plan = plan_plant(programs)
    with cases.case("wake: a finished job prints what examples/plant.report says"):
        expect(plan.ended, (ROOT / "examples/plant.report").read_bytes(), "the end")
    try_jobs(programs, cases, plan)
    try_names(programs, cases)
    try_arguments(programs, cases)
    try_long_paths(programs, cases)
    try_checkpoints(programs, cases)
    try_books(programs, cases, plan)
    try_missing(programs, cases)
