"""What `wake` makes of a book that was changed since its checkpoint was begun: CHECKPOINT.book
holds the book that the checkpoint stands for, so no figure of the one is added to the other's."""
from program_annual import ONE, REFUSED
from program_books import CHECKPOINT, LINE, LONGEST, book, checkpoint, count_of, fuel_record, patch
from program_books import trailer, under_set, unit_line
from program_jobs import ALL, Plan, job_on, plan_by_lines, plan_plant, plans_by_replay
from program_runs import FAILED, expect, expect_answer, expect_failure, expect_told
from program_wake import LEFT, expect_replaced

SMALL = book([fuel_record(), fuel_record(2000)])
# What no wake may replace, though it isn't a checkpoint: only its length tells.
OTHERS = {"the book itself": ONE, "a text": b"notes of the year\n", "a byte": b"\0",
          "a checkpoint less a byte": bytes(CHECKPOINT - 1),
          "a checkpoint and a byte": bytes(CHECKPOINT + 1)}


def correct(of, record=0, amount=4321):
    """The book with another amount in a record, which is as long as before."""
    return patch(of, LINE * record + 8, amount.to_bytes(4, "little"))


def resize(of, records):
    """The book with its last record once more, or without it, or without any."""
    start, at = LINE * count_of(of), len(of) - LINE
    fuels_at = int.from_bytes(of[at + 12:at + 16], "little")
    kept = (of[:start] + of[start - LINE:start])[:LINE * records]
    return kept + of[start:at] + trailer(len(kept), fuels_at - start + len(kept))


def changes(of):
    """Books that take the place of a book, by what was done to it."""
    count = count_of(of)
    return {"an amount of the first record is corrected": correct(of),
            "an amount of the last record is corrected": correct(of, count - 1),
            "it has a record more": resize(of, count + 1),
            "it has a record less": resize(of, count - 1),
            "it has no record left": resize(of, 0),
            "the year is another": patch(of, len(of) - LINE + 16, b"\xdb\x07"),
            "the warming values are others": under_set(of, 1),
            "a unit's rating is another": patch(of, LINE * count + 4, b"\x01\x00")}


def try_changes(programs, cases):
    """From the midst of a job and from its end, in one wake and in two."""
    for name, new in changes(SMALL).items():
        old_plan, plan = plans_by_replay(programs, [SMALL, new])
        for place in range(old_plan.count + 1):
            for budgets in ([ALL], [0, 1, ALL]):
                with cases.case(f"wake: {name}, from {place} by {budgets}"), job_on(
                        programs, SMALL, old_plan.places[place]) as job:
                    job.book.write_bytes(new)
                    at = job.expect_woken(plan, 0, budgets[0], err=job.changed())
                    for budget in budgets[1:]:
                        at = job.expect_woken(plan, at, budget)
                    expect(at, plan.count, "the last place")


def try_plant(programs, cases):
    """The same of the sample plant, through wakes alone, and back to the book that it had."""
    plan = plan_plant(programs)
    new = plan_by_lines(programs, correct(plan.book, 7))
    for before in ([100], [100, 100], [ALL]):
        with cases.case(f"wake: a record of the plant is corrected after {before}"), job_on(
                programs, plan.book) as job:
            place = 0
            for budget in before:
                place = job.expect_woken(plan, place, budget)
            job.book.write_bytes(new.book)
            place = job.expect_woken(new, 0, 100, err=job.changed())
            job.expect_woken(new, place, ALL)
            job.book.write_bytes(plan.book)
            job.expect_woken(plan, 0, ALL, err=job.changed())


def try_each_byte(programs, cases):
    """One byte is another between two wakes. A refused book touches nothing: the old goes on."""
    edited = [patch(SMALL, at, bytes([SMALL[at] ^ 1])) for at in range(len(SMALL))]
    old, *plans = plans_by_replay(programs, [SMALL, *edited])
    accepted = sum(isinstance(plan, Plan) for plan in plans)
    cases.note(f"of {len(plans)} books with another byte {accepted} are accepted")
    for at, (of, plan) in enumerate(zip(edited, plans)):
        with cases.case(f"wake: byte {at} is another"), job_on(programs, of) as job:
            job.stand(old.places[1], SMALL)
            if isinstance(plan, Plan):
                job.expect_woken(plan, 0, ALL, err=job.changed())
                continue
            before = job.files()
            expect_told(job.wake(1), f"refused {plan}\n".encode())
            job.expect_kept(before)
            job.book.write_bytes(SMALL)
            job.expect_woken(old, 1, ALL)


def try_missing(programs, cases):
    """A checkpoint without a copy is taken at its word, whatever book it was of."""
    plan = plan_by_lines(programs, SMALL)
    for place in range(plan.count + 1):
        with cases.case(f"wake: there is no copy, from {place}"), job_on(programs, SMALL) as job:
            job.stand(plan.places[place], None)
            job.expect_woken(plan, place, ALL)
    with cases.case("wake: there is no copy, and the book was another"), job_on(
            programs, correct(SMALL)) as job:
        job.stand(plan.places[1], None)
        expect_told(job.wake(ALL), plan.told(1, 1))
        job.expect_saved(plan.places[2])
    for kind, copy in (("its own", SMALL), ("another", ONE), ("an empty", b"")):
        with cases.case(f"wake: there is {kind} copy, and no checkpoint"), job_on(
                programs, SMALL) as job:
            job.stand(None, copy)
            # A stop may have swallowed what was told before the checkpoint was removed.
            job.expect_woken(plan, 0, ALL, err=job.changed() if copy != SMALL else b"")


def try_damaged(programs, cases):
    """A copy that isn't the book, byte for byte, is another book's."""
    plan = plan_by_lines(programs, SMALL)
    copies = {"empty": b"", "cut by a byte": SMALL[:-1], "cut to a line": SMALL[:LINE],
              "a byte longer": SMALL + b"\0", "twice the book": SMALL + SMALL,
              "damaged in its first byte": patch(SMALL, 0, b"\x81"),
              "damaged in its last byte": patch(SMALL, len(SMALL) - 1, b"\x80"),
              "the book behind a byte": b"\0" + SMALL, "longer than any book": bytes(LONGEST + 1)}
    for name, copy in copies.items():
        for place in (1, 2):
            with cases.case(f"wake: the copy is {name}, from {place}"), job_on(
                    programs, SMALL, plan.places[place], copy) as job:
                job.expect_woken(plan, 0, ALL, err=job.changed())


def try_unreadable(programs, cases):
    for saved in (None, checkpoint(ONE), b"strange"):
        for more in ([], ["fresh"]):
            with cases.case(f"wake: a folder is where the copy should be {more}, beside {saved}"), \
                    job_on(programs, ONE) as job:
                job.stand(saved, None)
                job.copy.mkdir()
                before = job.files()
                expect_failure(job.wake(1, *more), f"{job.copy}: ".encode())
                job.expect_kept(before)


def try_fresh(programs, cases):
    """`fresh` says nothing of a book that has changed: whoever asks for it knows."""
    plan = plan_by_lines(programs, SMALL)
    for kind, copy in (("its own", SMALL), ("another", correct(SMALL)), ("no", None)):
        for place in (None, 1, 2):
            with cases.case(f"wake: fresh from {place}, with {kind} copy"), job_on(
                    programs, SMALL) as job:
                job.stand(None if place is None else plan.places[place], copy)
                job.expect_woken(plan, 0, 1, "fresh")


def try_others(programs, cases):
    """Neither `fresh` nor a changed book is a reason to lose what isn't a checkpoint."""
    for name, content in OTHERS.items():
        for copy in (ONE, SMALL, None):
            with cases.case(f"wake: fresh, and CHECKPOINT is {name}, with a copy of "
                            f"{len(copy or b'')} bytes"), job_on(programs, ONE) as job:
                job.stand(content, copy)
                expect_replaced(job, content, "fresh")
        with cases.case(f"wake: a changed book, and CHECKPOINT is {name}"), job_on(
                programs, ONE, content, SMALL) as job:
            before = job.files()
            answer = job.wake(1)
            # Whether the change was told by then is nobody's loss.
            told = answer.err.removeprefix(job.changed())
            expect_answer(answer._replace(err=told), FAILED, b"", LEFT.format(job.saved).encode())
            job.expect_kept(before)
    for copy in (ONE, SMALL, None):
        with cases.case(f"wake: an empty CHECKPOINT is replaced, beside {copy and len(copy)}"), \
                job_on(programs, ONE) as job:
            job.stand(b"", copy)
            expect_replaced(job, b"", "fresh")
    with cases.case("wake: an empty CHECKPOINT and a changed book"), job_on(
            programs, ONE, b"", SMALL) as job:
        expect_replaced(job, b"", err=job.changed())
    for more in ([], ["fresh"]):
        with cases.case(f"wake: CHECKPOINT is a folder, and the copy another's {more}"), job_on(
                programs, ONE) as job:
            job.stand(None, SMALL)
            job.saved.mkdir()
            before = job.files()
            expect_failure(job.wake(1, *more), f"{job.saved}: ".encode())
            job.expect_kept(before)


# BOOK, CHECKPOINT, a link to the book that is made first, and what is told to be the book.
SAME = [
    ("book", "book", None, "book"), ("book", "./book", None, "./book"),
    ("./book", "sub/../book", None, "sub/../book"), ("sub/../book", "book", None, "book"),
    ("book", "link", "link", "link"), ("link", "book", "link", "book"),
    ("link", "link", "link", "link"), ("book", "ours", "ours.book", "ours.book"),
    ("ours.book", "ours", "ours.book", "ours.book"),
    ("ours.book", "./ours", "ours.book", "./ours.book"),
]
AS_LONG = book([fuel_record()], [unit_line()], [])  # as a checkpoint, which only its name tells


def try_same(programs, cases):
    """The book itself is neither a checkpoint nor a copy, by whatever path it is reached."""
    expect(len(AS_LONG), CHECKPOINT, "the length of a book")
    for of, saved, link, told in SAME:
        for more in ([], ["fresh"]):
            with cases.case(f"wake: {of} {saved} {more}, with the link {link}"), job_on(
                    programs, AS_LONG) as job:
                (job.folder / "sub").mkdir()
                if link:
                    (job.folder / link).symlink_to("book")
                before = job.files()
                answer = programs.run("wake", of, saved, "5", *more, cwd=job.folder)
                expect_answer(answer, FAILED, b"", f"{told}: is the book itself\n".encode())
                job.expect_kept(before)
                expect(link is None or (job.folder / link).is_symlink(), True, "that it is a link")
    with cases.case("wake: plant.book plant"), job_on(programs, ONE) as job:
        job.book.rename(job.folder / "plant.book")
        for more in ([], ["fresh"]):
            answer = programs.run("wake", "plant.book", "plant", "5", *more, cwd=job.folder)
            expect_answer(answer, FAILED, b"", b"plant.book: is the book itself\n")
            job.expect_kept({"plant.book": ONE})
    with cases.case("wake: another file with the book's bytes is no book"), job_on(
            programs, ONE, None, ONE) as job:
        expect_told(job.wake(0), b"moved 0\ndone 0 of 1\n")


def try_refused(programs, cases):
    """A refused book between two wakes touches nothing, and the job goes on where it was."""
    plan = plan_by_lines(programs, SMALL)
    for name, (number, of) in REFUSED.items():
        with cases.case(f"wake: between two wakes, {name}"), job_on(
                programs, SMALL, plan.places[1]) as job:
            before = job.files()
            job.book.write_bytes(of)
            expect_told(job.wake(1), f"refused {number}\n".encode())
            job.book.write_bytes(SMALL)
            job.expect_kept(before)
            job.expect_woken(plan, 1, ALL)


def try_copy(programs, cases):
    for attempt in (try_changes, try_plant, try_each_byte, try_missing, try_damaged,
                    try_unreadable, try_fresh, try_others, try_same, try_refused):
        attempt(programs, cases)
