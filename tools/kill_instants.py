"""A job that is killed at random instants, while its book may be edited.

At every instant a checkpoint that is there must be one that the copy's book gives. It must be the
one that the job had before or the one that this wake makes, byte for byte; only where the copy is
another's may there be none. Once a wake has told of its end, it must be the new one.
"""
import contextlib
import os
import statistics
import subprocess
import tempfile
import time

from kill_saves import left_behind
from program_copy import correct
from program_jobs import ALL, Job, look_at, plans_by_replay
from program_runs import PATIENCE, Wrong, expect, kill, turns

MOST = 12  # records in one wake, so that a job has many saves
RUNS = 15  # that are measured before the kills
EDITS = 0.5  # how many of the wakes find another book, where books are edited


def edited_plans(programs, plan):
    """The plant's book, and two that differ from it in one amount."""
    return [plan, *plans_by_replay(programs, [correct(plan.book, 7), correct(plan.book, 200)])]


def look_at_pair(job):
    """Checkpoint and copy as they stand at one instant, beside a wake that may replace them."""
    for _ in turns():
        copy = look_at(job.copy)
        saved = job.look()
        if look_at(job.copy) == copy:
            return saved, copy


def expect_paired(pair, plans):
    """Never a checkpoint beside the copy of a book that doesn't give it."""
    saved, copy = pair
    if saved is not None and not any(
            saved in plan.places for plan in plans if copy in (None, plan.book)):
        raise Wrong(f"the copy's book doesn't give the checkpoint {saved!r}")


class Killed:
    """A job that goes on through kills, and starts again when it has ended. A wake has so many
    records at most."""

    def __init__(self, programs, folder, plans, most=MOST):
        self.plans, self.plan, self.most = plans, plans[0], most
        self.job = Job(programs, folder, self.plan.book)
        self.pair = (None, None)  # the checkpoint and the copy, as they were seen last
        self.stale = {}
        self.within = self.between = self.ended = 0

    def start(self, budget):
        return self.job.programs.start(*self.job.args(budget), stdin=subprocess.DEVNULL,
                                       stdout=subprocess.PIPE, stderr=subprocess.PIPE)

    def edit(self, plan):
        self.plan = plan
        self.job.book.write_bytes(plan.book)

    def is_changed(self):
        return self.pair[1] not in (None, self.plan.book)

    def place(self):
        """Where the next wake starts."""
        saved, copy = self.pair
        return self.plan.places.index(saved) if saved and copy == self.plan.book else 0

    def goes_to(self, budget):
        return self.place() + self.plan.moved(self.place(), budget)

    def may_leave(self, budget):
        """Checkpoint and copy after each step of a wake, from the first to the last."""
        of, copy = self.plan.book, self.pair[1]
        between = [] if copy == of else [(None, copy), (None, of)]
        return [self.pair, *between, (self.plan.places[self.goes_to(budget)], of)]

    def check_kill(self, budget, out, err):
        """What a killed wake left behind. Counts it if it was killed within its saves."""
        steps, told = self.may_leave(budget), self.plan.told(self.place(), budget)
        pair = look_at_pair(self.job)
        expect_paired(pair, self.plans)
        if pair not in steps:
            raise Wrong(f"neither the new checkpoint {self.goes_to(budget)} nor the old: {pair!r}")
        if out:
            expect(pair, steps[-1], f"it told {out!r}; the checkpoint is the new one, and the pair")
            expect(out, told, "standard output")
        said = self.job.changed() if self.is_changed() else b""
        is_said = err == said if pair != self.pair else said.startswith(err)
        expect(is_said, True, f"that standard error is {said!r} and not {err!r}")
        self.within += self.check_stale(steps[-1]) or (pair != steps[0] and not out)
        self.between += pair in steps[1:-1]
        self.pair = pair

    def check_stale(self, new):
        """Temporary files hold a part of what is saved, and stay. Whether there is one more."""
        stale = left_behind(self.job)
        for name in stale.keys() - self.stale.keys():
            if not any(content.startswith(stale[name]) for content in new):
                raise Wrong(f"{name} is no part of what is saved: {stale[name]!r}")
        expect({name: stale.get(name) for name in self.stale}, self.stale, "what was left before")
        is_more = len(stale) > len(self.stale)
        self.stale = stale
        return is_more

    def end(self):
        """Lets the job go on to its end, unkilled, and begins the next."""
        err = self.job.changed() if self.is_changed() else b""
        self.job.expect_woken(self.plan, self.place(), ALL, stale=self.stale, err=err)
        self.ended += 1
        self.begin()

    def begin(self, place=None):
        self.job.clear()
        self.pair = (None, None) if place is None else (self.plan.places[place], self.plan.book)
        self.job.stand(*self.pair)
        self.stale = {}


def kill_after(seconds):
    def wait(_, process):
        with contextlib.suppress(subprocess.TimeoutExpired):
            process.wait(seconds)
    return wait


def kill_at_sight(seconds):
    """Waits until the saves are seen to have begun, by names in the folder, and then so long."""
    def wait(killed, process):
        before = set(os.listdir(killed.job.folder))
        for _ in turns():
            if process.poll() is not None or set(os.listdir(killed.job.folder)) != before:
                break
        until = time.monotonic() + seconds
        while time.monotonic() < until:
            expect_paired(look_at_pair(killed.job), killed.plans)
    return wait


def measure(killed, is_edited, count):
    """The median of some runs, and of their saves as the folder shows them, in seconds."""
    runs, saves = [], []
    for turn in range(count):
        killed.edit(killed.plans[turn % 2 * is_edited])
        began = time.monotonic()
        process = killed.start(1)
        kill_at_sight(0)(killed, process)
        seen = time.monotonic()
        process.communicate(timeout=PATIENCE)
        runs.append(time.monotonic() - began)
        saves.append(time.monotonic() - seen)
        killed.pair = look_at_pair(killed.job)
    killed.end()
    # What a busy machine sees of a short save may be next to nothing.
    return statistics.median(runs), max(0.001, statistics.median(saves))


def one_kill(killed, wait, budget):
    process = killed.start(budget)
    try:
        wait(killed, process)
    finally:
        kill(process)
        out, err = process.communicate(timeout=PATIENCE)
    try:
        killed.check_kill(budget, out, err)
        if killed.pair == (killed.plan.places[-1], killed.plan.book):
            killed.end()
    except Wrong:
        killed.begin()  # The next kill is judged by itself.
        raise


def try_kinds(cases, killed, chance, rounds, is_edited, runs=RUNS):
    """Kills at any instant of a run, and of its saves, with one book or with several. Gives how
    many fell within the saves."""
    run, save = measure(killed, is_edited, runs)
    words = "an edited" if is_edited else "a"
    cases.note(f"{words} run takes {1000 * run:.1f} ms, its saves {1000 * save:.1f} ms of them")
    fell = 0
    for kind, wait, span in (("within its run", kill_after, run),
                             ("at the sight of its saves", kill_at_sight, save)):
        killed.within = killed.between = 0
        for turn in range(rounds):
            if is_edited and chance.random() < EDITS:
                killed.edit(chance.choice(killed.plans))
            seconds, budget = chance.uniform(0, span), chance.randint(1, killed.most)
            instant = f"{kind}, {1e6 * seconds:.0f} µs on, from {killed.place()}"
            with cases.case(f"{words} kill {turn} {instant}"):
                one_kill(killed, wait(seconds), budget)
        cases.note(f"{rounds} kills {kind}: {killed.within} of them fell within the saves, "
                   f"{killed.between} where there was no checkpoint")
        fell += killed.within
    return fell


def try_kills(programs, cases, plan, chance, rounds):
    for is_edited in (False, True):
        with tempfile.TemporaryDirectory() as folder:
            killed = Killed(programs, folder, edited_plans(programs, plan))
            fell = try_kinds(cases, killed, chance, rounds, is_edited)
            with cases.case(f"some kill fell within the saves, edited {is_edited}"):
                expect(fell > 0, True, "that one did")
            with cases.case("the killed job goes on to its end"):
                killed.end()
            cases.note(f"the killed job reached its end {killed.ended} times")
