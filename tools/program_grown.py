"""Long books that are cut short or have grown, between two wakes or while one reads. What is no
whole book is refused and touches nothing, so that the job goes on once the book is whole again. A
whole book that is another one starts anew, which is told, and has its own figures at the end."""
import functools
import os
import subprocess

from program_annual import feed
from program_books import LINE, LONGEST, MOST_ANNUAL, book, checkpoint, fuel_record
from program_copy import correct
from program_jobs import ALL, job_on
from program_long import FAR, ROOM, longest_plan, plan_deliveries, too_long
from program_runs import PATIENCE, Answer, expect, expect_told, kill

PIPE = 65_536  # bytes that a pipe holds
PLACE = FAR + 1  # where the jobs stand
# How much is left of the longest book, and the number that it is refused with: where its last line is
# whole, it is no trailer.
CUTS = {0: 20, 1: 20, LINE: 21, MOST_ANNUAL: 21, LONGEST // 2 + 7: 20, LONGEST - LINE: 21,
        LONGEST - 1: 20}


def plan_edited(*places):
    """The longest book with another amount at these places."""
    return plan_deliveries([4321 if place in places else place for place in range(ROOM)])


def start_fed(path, start, *parts):
    """Puts a pipe in the place of a book and starts a program on it. There is a stop behind each
    part until all of it is read. Gives the process and the pipe, whose close is the book's end."""
    path.unlink()
    os.mkfifo(path)
    pipe = os.open(path, os.O_RDWR)
    process = start(stdin=subprocess.DEVNULL, stdout=subprocess.PIPE, stderr=subprocess.PIPE)
    try:
        for part in parts:
            feed(process, (pipe, pipe), part, [PIPE])
    except BaseException:
        kill(process)
        os.close(pipe)
        raise
    return process, pipe


def wake_fed(job, budget, *parts):
    """One wake whose book comes in these parts. There is no book afterwards."""
    process, pipe = start_fed(job.book, functools.partial(
        job.programs.start, *job.args(budget)), *parts)
    os.close(pipe)
    try:
        out, err = process.communicate(timeout=PATIENCE)
    finally:
        kill(process)
    job.book.unlink()
    return Answer(process.returncode, out, err)


def kill_reading(path, start, length):
    """A program that is killed once it has read so many bytes of its book, which is there again
    afterwards."""
    of = path.read_bytes()
    process, pipe = start_fed(path, start, of[:length])
    try:
        expect(process.poll(), None, "how it ended by itself")
    finally:
        kill(process)
        os.close(pipe)
    expect(process.communicate(timeout=PATIENCE), (b"", b""), "what it told")
    path.unlink()
    path.write_bytes(of)


def expect_refused(job, number, *parts):
    """A wake that reads these parts, or the file. The others are kept, and so is the job."""
    before = job.files()
    del before["book"]
    told = wake_fed(job, 1, *parts) if parts else job.wake(1)
    expect_told(told, f"refused {number}\n".encode())
    after = job.files()
    after.pop("book", None)
    expect(after, before, "the folder")


def go_on(job, plan):
    """The book is whole again, and the job goes on where it was."""
    job.book.write_bytes(plan.book)
    job.expect_woken(plan, PLACE, ALL)


def try_cut(programs, cases):
    """Cut short between two wakes."""
    plan = longest_plan()
    for length, number in CUTS.items():
        with cases.case(f"lines: the longest book ends after {length} bytes"):
            expect_told(programs.run("lines", data=plan.book[:length]),
                        f"refused {number}\n".encode())
        with cases.case(f"wake: the longest book is cut to {length} bytes"), job_on(
                programs, plan.book, plan.places[PLACE]) as job:
            job.book.write_bytes(plan.book[:length])
            expect_refused(job, number)
            go_on(job, plan)


def try_ended(programs, cases):
    """Cut short while it is read. Nobody opens a pipe that is closed again with nothing in it."""
    plan = longest_plan()
    for length in filter(None, CUTS):
        with cases.case(f"wake: the longest book ends after {length} bytes, as it is read"), job_on(
                programs, plan.book, plan.places[PLACE]) as job:
            expect_refused(job, CUTS[length], plan.book[:length])
            go_on(job, plan)


def try_past(programs, cases):
    """The longest book grows past what a book may have."""
    plan = longest_plan()
    for name, of in too_long().items():
        with cases.case(f"wake: between two wakes, {name}"), job_on(
                programs, plan.book, plan.places[PLACE]) as job:
            job.book.write_bytes(of)
            expect_refused(job, 20)
            go_on(job, plan)
    with cases.case("wake: the longest book has a byte more once it is read"), job_on(
            programs, plan.book, plan.places[PLACE]) as job:
        expect_refused(job, 20, plan.book, b"\0")
        go_on(job, plan)
    with cases.case("wake: the longest book, slowly"), job_on(
            programs, plan.book, plan.places[PLACE]) as job:
        told = wake_fed(job, 1, plan.book[:LONGEST // 2 + 7], plan.book[LONGEST // 2 + 7:])
        expect_told(told, plan.told(PLACE, 1))


def try_others(programs, cases):
    """From a book to another, each of which is right: old, new, and where the old job stands."""
    short, less = MOST_ANNUAL // LINE - 3, ROOM - 1
    full, longest = plan_deliveries(range(short)), longest_plan()
    pairs = {"65,536 bytes and a line": (full, plan_deliveries(range(short + 1)), 1000),
             "65,536 bytes to the longest": (full, longest, short),
             "the longest to a line less": (longest, plan_deliveries(range(less)), PLACE),
             "the longest to 65,536 bytes": (longest, full, ROOM),
             "the longest to another last record": (longest, plan_edited(ROOM - 1), PLACE)}
    for name, (old, new, place) in pairs.items():
        with cases.case(f"wake: the book goes from {name}"), job_on(
                programs, new.book, old.places[place], old.book) as job:
            at = job.expect_woken(new, 0, 1000, err=job.changed())
            job.expect_woken(new, at, ALL)


def try_mixtures(programs, cases):
    """A book that is edited while it is read may be read in part as it was. What is read is a book
    of its own; the next wake finds another one and starts anew."""
    old, new, half = longest_plan(), plan_edited(5, ROOM - 1), LONGEST // 2
    with cases.case("wake: the longest book is edited at both ends while it is read"), job_on(
            programs, old.book, old.places[PLACE]) as job:
        told = wake_fed(job, ALL, old.book[:half], new.book[half:])
        expect_told(told, plan_edited(ROOM - 1).told(0, int(ALL)), job.changed())
        job.book.write_bytes(new.book)
        job.expect_woken(new, 0, ALL, err=job.changed())
    full = book([fuel_record(place) for place in range(MOST_ANNUAL // LINE - 3)])
    with cases.case("wake: a book of 65,536 bytes grows to the longest while it is read"), job_on(
            programs, full, checkpoint(full)) as job:
        # The unit, the fuel and the trailer of the old one are records of what is read.
        told = wake_fed(job, ALL, full, old.book[len(full):])
        expect_told(told, f"moved {ROOM}\ndone {ROOM} of {ROOM}\nrefused 41 record 2045 reason 2\n"
                    .encode(), job.changed())
        job.book.write_bytes(old.book)
        job.expect_woken(old, 0, ALL, err=job.changed())


def try_copies(programs, cases):
    """The copy of the longest book, and copies that aren't."""
    plan = longest_plan()
    of = plan.book
    with cases.case("wake: the copy of the longest book"), job_on(
            programs, of, plan.places[-1]) as job:
        job.expect_woken(plan, ROOM, 5)
    copies = {"cut by a byte": of[:-1], "cut to its half": of[:LONGEST // 2], "longer": of + b"\0",
              "twice as long": of + of, "another in its last record": correct(of, ROOM - 1)}
    for name, copy in copies.items():
        with cases.case(f"wake: the copy of the longest book is {name}"), job_on(
                programs, of, plan.places[PLACE], copy) as job:
            job.expect_woken(plan, 0, ALL, err=job.changed())


def try_grown(programs, cases):
    for attempt in (try_cut, try_ended, try_past, try_others, try_mixtures, try_copies):
        attempt(programs, cases)
