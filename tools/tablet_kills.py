"""A tablet whose runs are killed: fairness and figures survive it.

A run that prints to a file that may not grow ends at the first byte it prints, so exactly one turn
fits into it. A run under a low limit on the size of files ends within the save of a checkpoint or of a
copy, which are longer than the kept place of a short list, so its one turn is cut.
"""
import re
import subprocess
import tempfile

from kill_saves import expect_stopped, limit_files, run_untold
from program_copy import correct
from program_runs import PATIENCE, Wrong, expect, kill
from tablet_edits import plans_of
from tablet_model import KEPT, changed, ends_of, kept_text, tablet_on

BUDGET = 3
SHORT, LONGER = 0.005, 1.05  # seconds that a killed run is given at most, and by what they grow
MOST_JOBS = 200  # until a kill falls within a turn, where turns are short
EDITS, OFTEN = 6, 0.1  # how many edits a killed job has, and before how many of its runs
CUT_AT = 70  # bytes: less than a checkpoint, and more than the kept place of three plants
SERVED = re.compile(rb"^(\w+)\.book moved [1-9]", re.M)  # A plant that is done is told with 0.


def one_turn(tablet, budget=BUDGET):
    """A run in which one turn fits: its first byte ends it."""
    run_untold(tablet.run, budget)


def cut_turn(tablet, budget=BUDGET, length=CUT_AT):
    """A run whose one turn is cut within its save, after so many bytes."""
    answer = tablet.run(budget, preexec_fn=limit_files(length, is_told=False))
    expect_stopped(answer)


def expect_turn(tablet, turn, name, moved):
    """One run serves this plant and no other, and keeps its place whether it is cut or not."""
    places = tablet.places()
    turn(tablet)
    places[name] += moved
    expect(tablet.places(), places, f"the places after the turn of {name}")
    expect(tablet.kept(), kept_text(tablet.names, name), "what is kept")


def try_rhythm(programs, cases, plans, rounds=4):
    with cases.case(f"one turn fits into each run: {len(plans)} plants take turns"), tablet_on(
            programs, plans) as tablet:
        for _ in range(rounds):
            for name in tablet.names:
                expect_turn(tablet, one_turn, name, BUDGET)


def try_cuts(programs, cases, plans):
    three = {name: plans[name] for name in "abc"}
    with cases.case("every turn is cut: the round goes on all the same"), tablet_on(
            programs, three) as tablet:
        for name in "abcabca":
            expect_turn(tablet, cut_turn, name, 0)
    with cases.case("one plant is cut each time: the others go on"), tablet_on(
            programs, three) as tablet:
        for _ in range(4):
            expect_turn(tablet, one_turn, "a", BUDGET)
            expect_turn(tablet, cut_turn, "b", 0)
            expect_turn(tablet, one_turn, "c", BUDGET)
        tablet.expect_run(BUDGET)


def try_changes(programs, cases, plans):
    """Each change of the list after the turn of b, and who is served next."""
    changes = {
        "nothing": ("abcde", "c"),
        "the next plant is gone": ("abde", "d"),
        "the plant that was served is gone": ("acde", "c"),
        "it and the one before are gone": ("cde", "c"),
        "the order is another": ("edbca", "c"),
        "the served one stands last": ("acdeb", "a"),
        "others stand in front": ("deabc", "c"),
        "it alone is left": ("b", "b"),
    }
    for change, (names, following) in changes.items():
        with cases.case(f"a changed list: {change}"), tablet_on(programs, plans) as tablet:
            for name in "ab":
                expect_turn(tablet, one_turn, name, BUDGET)
            places = tablet.places()
            tablet.list(names)
            expect_turn(tablet, one_turn, following, BUDGET)
            tablet.list(plans)
            places[following] += BUDGET
            expect(tablet.places(), places, "what others had")
    for kept in (b"", b"\n", b"nobody.book nobody.saved\n", bytes(300), b"b.book b.saved"):
        with cases.case(f"what is kept is strange: {kept[:20]!r}"), tablet_on(
                programs, plans) as tablet:
            (tablet.folder / KEPT).write_bytes(kept)
            expect_turn(tablet, one_turn, "a", BUDGET)


def start(tablet, budget=BUDGET):
    return tablet.programs.start(*tablet.args(budget), cwd=tablet.folder, stdin=subprocess.DEVNULL,
                                 stdout=subprocess.PIPE, stderr=subprocess.PIPE)


def kill_within(tablet, budget, seconds):
    """A run that is given so long. It may say of a plant that it starts anew, and nothing else."""
    wanted = {changed(name) for name in tablet.names if tablet.is_changed(name)}
    process = start(tablet, budget)
    try:
        process.wait(seconds)
    except subprocess.TimeoutExpired:
        kill(process)
    out, err = process.communicate(timeout=PATIENCE)
    said = err.splitlines(True)
    if len(set(said)) < len(said) or not all(
            any(line.startswith(each) for line in wanted) for each in said):
        raise Wrong(f"standard error is {err!r}")
    return out


class Killed:
    """A tablet that is started and killed, again and again, until all its plants are done. Some of
    its books are edited meanwhile, to and fro. A run is given so many seconds at most at first."""

    def __init__(self, tablet, others, chance, budget=1, longest=SHORT):
        self.tablet, self.chance, self.budget = tablet, chance, budget
        self.books = {name: [tablet.plans[name], others[name]] for name in others}
        self.longest = longest
        self.starts = self.cut = self.edits = 0

    def edit(self):
        name = self.chance.choice(list(self.books))
        self.books[name].reverse()
        self.tablet.edit(name, self.books[name][0])
        self.edits += 1

    def kill(self):
        """One run. No checkpoint goes back. Counts it if it was killed within a turn."""
        if self.edits < EDITS and self.chance.random() < OFTEN:
            self.edit()
        before, kept = self.tablet.places(), self.tablet.kept()
        out = kill_within(self.tablet, self.budget, self.chance.uniform(0, self.longest))
        after = self.tablet.places()
        if any(after[name] < before[name] for name in after):
            raise Wrong(f"the places went from {before} to {after}")
        turns = [name.decode() for name in SERVED.findall(out)]
        self.starts += 1
        self.cut += self.tablet.kept() != kept and turns[-1:] != [self.tablet.served_last()]
        if after == before:
            self.longest *= LONGER  # On a slow machine hardly a start may fit into so short a run.

    def finish(self):
        while self.tablet.places() != ends_of(self.tablet.plans):
            self.kill()
        told = kill_within(self.tablet, self.budget, PATIENCE)
        expect(told, self.tablet.finished(), "the reports")


def try_kills(programs, cases, plans, chance, jobs):
    """Kills at random instants, on a disk if there is one, so that many fall within a turn."""
    four = {name: plans[name] for name in "acde"}
    others = plans_of(programs, {name: correct(plan.book, 3) for name, plan in four.items()})
    starts = cut = edits = job = 0
    while job < jobs or (cut == 0 and job < MOST_JOBS):
        with cases.case(f"job {job} is killed at random until it is done"), tablet_on(
                programs, four, tempfile.TemporaryDirectory) as tablet:
            killed = Killed(tablet, others, chance)
            try:
                killed.finish()
            finally:  # A job that fails counts too, or a wrong program would have all the jobs.
                starts, cut, edits = starts + killed.starts, cut + killed.cut, edits + killed.edits
        job += 1
    cases.note(f"{job} jobs of {len(four)} plants in {starts} runs, with {edits} edits: "
               f"{cut} kills within a turn")
    with cases.case("some kill fell within a turn"):
        expect(cut > 0, True, "that one did")


def try_two(programs, cases, plans):
    """Two at once lose nothing: both end, and the job is done or goes on to its end."""
    with cases.case("two tablets at once"), tablet_on(programs, plans) as tablet:
        both = [start(tablet), start(tablet)]
        for process in both:
            _, err = process.communicate(timeout=PATIENCE)
            expect((process.returncode, err), (0, b""), "the end of one")
        tablet.run(BUDGET)
        expect(tablet.places(), ends_of(plans), "the places")
        expect(tablet.run(BUDGET).out, tablet.finished(), "the reports")
