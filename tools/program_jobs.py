"""A job of `wake` in a folder of its own: its files, and what its wakes should print and save."""
import contextlib
import pathlib
import struct

from program_books import CHECKPOINT, checkpoint, count_of, ledgers_in, places_of, report
from program_replay import WAKE, answer, frame
from program_runs import PLANT, expect, expect_told, memory_folder

NAME, COPY = "checkpoint", "checkpoint.book"
ALL = "4294967295"  # the highest budget


class Plan:
    """What a job on a book has to print and save at each place, once its lines are added up."""

    def __init__(self, of, places, ended):
        self.book = of
        self.places = places
        self.count = count_of(of)
        self.ended = ended

    def moved(self, place, budget):
        return min(budget, self.count - place)

    def told(self, place, budget):
        """What a wake prints that starts at this place."""
        moved = self.moved(place, budget)
        done = place + moved
        text = f"moved {moved}\ndone {done} of {self.count}\n".encode()
        return text + (self.ended if done == self.count else b"")


def plan_by_lines(programs, of):
    """The places are the sums of what `lines` prints, and the end is their report."""
    places = places_of(of, programs.run("lines", data=of).out)
    return Plan(of, places, report(of, ledgers_in(places[-1])))


def plan_plant(programs):
    return plan_by_lines(programs, PLANT.read_bytes())


def end_of(of, last):
    """What is printed at the end of a job, by its last checkpoint: records may be set aside."""
    aside, first, reason = struct.unpack_from("<IIB", last, 4)
    if aside:
        return f"refused 41 record {first} reason {reason}\n".encode()
    return report(of, ledgers_in(last))


def wakes_by_replay(programs, asked):
    """Number and checkpoint of a wake from the start, for each book and budget that are asked."""
    frames = [frame(WAKE, budget, of, checkpoint(of), bytes(CHECKPOINT)) for of, budget in asked]
    told = programs.run("replay", data=b"".join(frames)).out
    size = len(answer(out=bytes(CHECKPOINT)))
    replies = [told[at:at + size] for at in range(0, len(told), size)]
    return [(reply[0], reply[-CHECKPOINT:]) for reply in replies]


def plans_by_replay(programs, books):
    """The plan of each book, or the number that refuses it."""
    numbers = [number for number, _ in wakes_by_replay(programs, [(of, 0) for of in books])]
    asked = [(of, budget) for of, number in zip(books, numbers) if not number
             for budget in range(1 + count_of(of))]
    wakes = iter(wakes_by_replay(programs, asked))
    plans = []
    for of, number in zip(books, numbers):
        places = [next(wakes)[1] for _ in range(1 + count_of(of))] if not number else []
        plans.append(number or Plan(of, places, end_of(of, places[-1])))
    return plans


class Job:
    """A folder with a book, perhaps a checkpoint and the copy of its book, and nothing else."""

    def __init__(self, programs, folder, of):
        self.programs = programs
        self.folder = pathlib.Path(folder)
        self.book = self.folder / "book"
        self.saved = self.folder / NAME
        self.copy = self.folder / COPY
        self.book.write_bytes(of)

    def args(self, budget, *more):
        return ["wake", str(self.book), str(self.saved), str(budget), *more]

    def wake(self, budget, *more, **options):
        return self.programs.run(*self.args(budget, *more), **options)

    def clear(self):
        """Leaves the book alone."""
        for name in self.files().keys() - {self.book.name}:
            (self.folder / name).unlink()

    def stand(self, saved, copy):
        """Sets up a checkpoint and the copy, each its bytes or None."""
        for path, content in ((self.saved, saved), (self.copy, copy)):
            path.unlink(missing_ok=True)
            if content is not None:
                path.write_bytes(content)

    def look(self):
        """The checkpoint's bytes, or None if there is no such file at this instant."""
        return look_at(self.saved)

    def files(self):
        """Every file with its bytes, and None for a folder."""
        return {path.name: path.read_bytes() if path.is_file() else None
                for path in self.folder.iterdir()}

    def changed(self, of=None):
        """What is told where a copy is there, and isn't BOOK."""
        of = of or self.book
        return f"{of} has changed since {self.saved} was begun: the job starts anew\n".encode()

    def expect_kept(self, before):
        """The folder is as it was: no file made, none changed, and no temporary one left behind."""
        expect(self.files(), before, "the folder")

    def expect_saved(self, saved, *stale):
        """A whole checkpoint beside the book and its copy, and no file but those of before."""
        files = self.files()
        expect(files.pop(NAME, None), saved, "the checkpoint")
        expect(files.pop(COPY, None), files["book"], "the copy")
        expect(sorted(files), sorted(["book", *stale]), "the list of other files")

    def expect_woken(self, plan, place, budget, *more, stale=(), err=b"", **options):
        """One wake from a place prints and saves what the plan says. Gives the new place."""
        answer = self.wake(budget, *more, **options)
        expect_told(answer, plan.told(place, int(budget)), err)
        place += plan.moved(place, int(budget))
        self.expect_saved(plan.places[place], *stale)
        return place


def look_at(path):
    try:
        return path.read_bytes()
    except FileNotFoundError:
        return None


@contextlib.contextmanager
def job_on(programs, of, saved=None, copy=None):
    """Where a checkpoint is given and no copy, the copy is the book's."""
    with memory_folder() as folder:
        job = Job(programs, folder, of)
        job.stand(saved, copy if copy is not None or saved is None else of)
        yield job
