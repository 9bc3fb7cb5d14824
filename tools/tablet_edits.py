"""Books of a tablet that are edited between two runs, and between two turns of one run: the plant
starts anew in its turn, which is told once, and no figure of the old book is added to the new."""
import os
import subprocess
import time

from kill_saves import run_untold
from program_annual import ONE
from program_books import book, fuel_record, trailer
from program_copy import correct, resize
from program_jobs import plans_by_replay
from program_runs import PATIENCE, Answer, Wrong, expect, expect_told, kill, turns
from tablet_model import KEPT, changed, kept_text, tablet_on, turn_of

BUDGET = 2
BOOKS = {"a": book([fuel_record()] * 3), "b": book([fuel_record(500)] * 2),
         "c": book([fuel_record(40)] * 4)}
EDITS = {"corrected": lambda of: correct(of, 1), "longer": lambda of: resize(of, len(of) // 32 - 2),
         "shorter": lambda of: resize(of, len(of) // 32 - 4),
         "of another year": lambda of: of[:-16] + b"\xdb\x07" + of[-14:]}


def plans_of(programs, books):
    return dict(zip(books, plans_by_replay(programs, list(books.values()))))


def edited_plans(programs, plans):
    """The plan of each plant's book after each edit, by both names."""
    return plans_of(programs, {(name, kind): edit(plan.book) for name, plan in plans.items()
                               for kind, edit in EDITS.items()})


def stand_after(tablet, count):
    """Puts the tablet where so many turns bring it."""
    places = tablet.places()
    for turn, (name, _) in enumerate(list(tablet.turns(BUDGET))):
        if turn == count:
            break
        places[name] += tablet.plans[name].moved(places[name], BUDGET)
        tablet.stand(name, places[name])
        (tablet.folder / KEPT).write_bytes(kept_text(tablet.names, name))


def try_between_runs(programs, cases, plans):
    """Each plant is edited after each turn, in each way in turn."""
    edited, kinds = edited_plans(programs, plans), list(EDITS)
    for count in range(7):
        for at, name in enumerate(plans):
            kind = kinds[(count + at) % len(kinds)]
            with cases.case(f"after {count} turns {name} is {kind}"), tablet_on(
                    programs, plans) as tablet:
                stand_after(tablet, count)
                tablet.edit(name, edited[name, kind])
                tablet.expect_run(BUDGET)
                tablet.expect_run(BUDGET)  # It is told once: now all are done.


def try_several(programs, cases, plans):
    other = plans_of(programs, {name: correct(plan.book) for name, plan in plans.items()})
    for names in ("ab", "bc", "abc"):
        with cases.case(f"{names} are done, and edited"), tablet_on(programs, plans) as tablet:
            tablet.expect_run(BUDGET)
            for name in names:
                tablet.edit(name, other[name])
            tablet.expect_run(1)
            for name in names:
                tablet.edit(name, plans[name])
            tablet.expect_run(BUDGET)
    with cases.case("a done book has lost its records"), tablet_on(programs, plans) as tablet:
        tablet.expect_run(BUDGET)
        tablet.edit("b", plans_by_replay(programs, [trailer(0, 0)])[0])
        answer = tablet.run(BUDGET)
        told = b"".join(line for line in answer.out.splitlines(True) if line.startswith(b"b."))
        expect(told, tablet.told("b", 0, BUDGET), "what is told of b")


def try_refused_between(programs, cases, plans):
    """A refused book touches nothing: the old one goes on, and a new one starts anew."""
    new = plans_by_replay(programs, [correct(plans["c"].book)])[0]
    for count in (0, 3, 5):
        for following in (plans["c"], new):
            with cases.case(f"after {count} turns c is refused, then back"), tablet_on(
                    programs, plans) as tablet:
                stand_after(tablet, count)
                before = tablet.saved("c"), tablet.copy("c")
                tablet.path("c", "book").write_bytes(ONE[:-1])
                answer = tablet.run(BUDGET)
                expect(answer.status, 3, "the exit status")
                expect(b"c.book refused 20\n" in answer.out, True, "that c is refused")
                expect((tablet.saved("c"), tablet.copy("c")), before, "what c has")
                tablet.edit("c", following)
                tablet.expect_run(BUDGET)


def try_copies(programs, cases, plans):
    """Copies that are missing or damaged, of plants in the midst and of plants that are done."""
    for count in (1, 4, 6):
        for name in plans:
            for kind in ("missing", "empty", "cut", "longer"):
                with cases.case(f"after {count} turns the copy of {name} is {kind}"), tablet_on(
                        programs, plans) as tablet:
                    stand_after(tablet, count)
                    path, of = tablet.path(name, "saved.book"), plans[name].book
                    path.unlink(missing_ok=True)
                    if kind != "missing":
                        path.write_bytes({"empty": b"", "cut": of[:-1], "longer": of + of}[kind])
                    tablet.expect_run(BUDGET)
                    expect(tablet.copy(name), of, "the copy")
    with cases.case("a done plant has its copy before it is told"), tablet_on(
            programs, plans) as tablet:
        stand_after(tablet, 6)
        tablet.path("a", "saved.book").unlink()
        run_untold(tablet.run, BUDGET)
        expect(tablet.copy("a"), plans["a"].book, "the copy")


class Fed:
    """A plant whose book is a pipe: the tablet waits at each look at it until it is fed."""

    def __init__(self, path, content):
        self.path, self.content = path, content
        path.unlink()
        os.mkfifo(path)

    def feed(self, process, meanwhile):
        """Waits until the tablet looks at the book, or has ended: then there is nothing to feed.
        The next look finds a pipe of its own, so that it can't be taken for this one."""
        for _ in turns():
            try:
                pipe = os.open(self.path, os.O_WRONLY | os.O_NONBLOCK)
                break
            except OSError:  # Nobody looks as yet.
                if process.poll() is not None:
                    return False
                time.sleep(0.0005)
        meanwhile()
        following = self.path.with_suffix(".next")
        os.mkfifo(following)
        following.rename(self.path)
        os.write(pipe, self.content)
        os.close(pipe)
        return True


def run_fed(tablet, fed, at, edit):
    """A run in which another plant is edited at a look at the fed one. Looks count from 0."""
    process = tablet.programs.start(*tablet.args(BUDGET), cwd=tablet.folder, stderr=subprocess.PIPE,
                                    stdin=subprocess.DEVNULL, stdout=subprocess.PIPE)
    look = 0
    try:
        while fed.feed(process, edit if look == at else lambda: None):
            look += 1
        out, err = process.communicate(timeout=PATIENCE)
    finally:
        kill(process)
    if look <= at:
        raise Wrong(f"it looked at the fed plant {look} times")
    return Answer(process.returncode, out, err)


class Round:
    """What a run from nothing prints and says, if a plant is edited at a look at b. The first look
    counts the plants, and each other is in a turn of b: the edit is found behind it."""

    def __init__(self, plans, at, name, new):
        self.plans, self.edit = dict(plans), (at, name, new)
        self.looks = 0
        self.begun = {}  # the plan and the place of each plant that was served
        self.out = self.said = b""
        left = {each: self.look(each).count for each in plans}
        while any(left.values()):
            for each in [each for each in plans if left[each]]:
                left[each] = self.serve(each)

    def look(self, name):
        at, edited, new = self.edit
        if name == "b":
            if self.looks == at:
                self.plans[edited] = new
            self.looks += 1
        return self.plans[name]

    def serve(self, name):
        """One turn. Gives how many records are left."""
        plan = self.look(name)
        of, place = self.begun.get(name, (plan, 0))
        if of is not plan:
            self.said += changed(name)
            place = 0
        self.out += turn_of(name, plan, place, BUDGET)
        place += plan.moved(place, BUDGET)
        self.begun[name] = plan, place
        return plan.count - place


def try_between_turns(programs, cases, plans):
    """Each other plant is edited while the tablet looks at b, before each turn of b."""
    longer = plans_by_replay(programs, [book([fuel_record(500)] * 7)])[0]
    looks = 1 + (longer.count + BUDGET - 1) // BUDGET
    for (name, kind), new in edited_plans(programs, plans).items():
        for at in range(looks):
            if name != "b":
                with cases.case(f"at look {at} at b, {name} is {kind}"), tablet_on(
                        programs, plans | {"b": longer}) as tablet:
                    wanted = Round(tablet.plans, at, name, new)
                    fed = Fed(tablet.path("b", "book"), longer.book)
                    answer = run_fed(tablet, fed, at, lambda: tablet.edit(name, new))
                    expect_told(answer, wanted.out, wanted.said)
                    tablet.path("b", "book").unlink()
                    tablet.edit("b", longer)
                    tablet.expect_run(BUDGET)  # What came too late for one run is the next one's.


def try_edits_between_runs(programs, cases, _plans):
    try_between_runs(programs, cases, plans_of(programs, BOOKS))


def try_edits(programs, cases, _plans):
    """On books of its own, in which few turns lead to the end."""
    plans = plans_of(programs, BOOKS)
    for attempt in (try_between_runs, try_several, try_refused_between, try_copies,
                    try_between_turns):
        attempt(programs, cases, plans)
