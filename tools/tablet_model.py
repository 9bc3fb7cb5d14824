"""A tablet in a folder of its own: its list and plants, and what a run should print and save."""
import contextlib
import pathlib

from program_books import each_line
from program_jobs import look_at, plan_by_lines
from program_runs import Wrong, expect, expect_told, memory_folder

LIST, KEPT = "list", "list.place"


def plan_of(programs, books):
    """What a job on each book prints and saves, by the plant's name."""
    return {name: plan_by_lines(programs, of) for name, of in books.items()}


def ends_of(plans):
    return {name: plan.count for name, plan in plans.items()}


def line_of(name):
    return f"{name}.book {name}.saved\n"


def changed(name):
    """What is told of a plant in its turn, if its copy is another book's."""
    return (f"{name}.book has changed since {name}.saved was begun: the job starts anew\n"
            .encode())


def turn_of(name, plan, place, budget):
    """The lines of one turn, with the report once the book is done."""
    moved = plan.moved(place, budget)
    done = place + moved
    text = f"moved {moved} done {done} of {plan.count}\n".encode()
    return each_line(f"{name}.book ", text + (plan.ended if done == plan.count else b""))


def kept_text(names, served):
    """What is kept before a plant is served: the list, turned so that it stands last."""
    at = names.index(served) + 1
    return "".join(map(line_of, names[at:] + names[:at])).encode()


class Tablet:
    """A folder with a list, its books and perhaps checkpoints. Plants go by their names."""

    def __init__(self, programs, folder, plans):
        self.programs = programs
        self.folder = pathlib.Path(folder)
        self.plans = {}
        self.known = {}  # every book that a plant had, with its plan
        for name, plan in plans.items():
            self.edit(name, plan)
        self.list(plans)

    def path(self, name, kind):
        return self.folder / f"{name}.{kind}"

    def edit(self, name, plan):
        """Gives a plant this book."""
        self.plans[name] = self.known[plan.book] = plan
        self.path(name, "book").write_bytes(plan.book)

    def stand(self, name, place):
        """Puts a plant at a place of its book, as its wakes would."""
        self.path(name, "saved").write_bytes(self.plans[name].places[place])
        self.path(name, "saved.book").write_bytes(self.plans[name].book)

    def list(self, names):
        self.names = list(names)
        (self.folder / LIST).write_text("".join(map(line_of, names)), encoding="utf-8")

    def args(self, budget):
        return ["tablet", LIST, str(budget)]

    def run(self, budget, **options):
        return self.programs.run(*self.args(budget), cwd=self.folder, **options)

    def saved(self, name):
        return look_at(self.path(name, "saved"))

    def copy(self, name):
        return look_at(self.path(name, "saved.book"))

    def is_changed(self, name):
        """Whether there is a copy, and it is another book's."""
        return self.copy(name) not in (None, self.plans[name].book)

    def place(self, name):
        """Where the next turn of a plant starts. No copy's book may fail to give its checkpoint."""
        saved, copy = self.saved(name), self.copy(name)
        if saved is None:
            return 0
        of = self.plans[name] if copy is None else self.known.get(copy)
        if of and saved not in of.places:
            raise Wrong(f"{name} has no checkpoint of its own: {saved!r}")
        return 0 if self.is_changed(name) else of.places.index(saved)

    def places(self):
        return {name: self.place(name) for name in self.names}

    def kept(self):
        return look_at(self.folder / KEPT)

    def served_last(self):
        """The last plant of the kept text that is still in the list, or none."""
        kept = [line.split(".")[0] for line in (self.kept() or b"").decode().splitlines()]
        return next((name for name in reversed(kept) if name in self.names), None)

    def files(self):
        return {path.name: path.read_bytes() for path in self.folder.iterdir() if path.is_file()}

    def told(self, name, place, budget):
        return turn_of(name, self.plans[name], place, budget)

    def order(self):
        """The plants from the one that is next."""
        served = self.served_last()
        at = 0 if served is None else self.names.index(served) + 1
        return self.names[at:] + self.names[:at]

    def turns(self, budget):
        """Each turn of a run from here to the end: the plant, and what is printed."""
        places, order = self.places(), self.order()
        while any(places[name] < self.plans[name].count for name in order):
            for name in order:
                if places[name] < self.plans[name].count:
                    yield name, self.told(name, places[name], budget)
                    places[name] += self.plans[name].moved(places[name], budget)

    def done(self):
        """The plants that are told at once."""
        return [name for name in self.names
                if not self.is_changed(name) and self.place(name) == self.plans[name].count]

    def finished(self):
        """What is printed at once of the plants that are done."""
        return b"".join(self.told(name, self.place(name), 0) for name in self.done())

    def expect_run(self, budget):
        """One run to the end: each line, each checkpoint, the kept place, and no other file."""
        turns = list(self.turns(budget))
        served = list(dict.fromkeys(name for name, _ in turns))
        text = self.finished() + b"".join(told for _, told in turns)
        said = b"".join(changed(name) for name in served if self.is_changed(name))
        kept = kept_text(self.names, turns[-1][0]) if turns else self.kept()
        wanted = self.files() | ({KEPT: kept} if kept else {})
        ended = served + [name for name in self.done() if self.saved(name)]
        expect_told(self.run(budget), text, said)
        # A plant without records has no turn, and need have no checkpoint.
        ended += [name for name in self.names if name not in ended and self.saved(name)]
        for name in ended:
            wanted[f"{name}.saved"] = self.plans[name].places[-1]
            wanted[f"{name}.saved.book"] = self.plans[name].book
        expect(self.files(), wanted, "the folder")


@contextlib.contextmanager
def tablet_on(programs, plans, make_folder=memory_folder):
    with make_folder() as folder:
        yield Tablet(programs, folder, plans)
