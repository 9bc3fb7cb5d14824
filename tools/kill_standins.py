"""Wakes that save wrongly, in the place of the right one: each must be caught."""
import pathlib

from kill_failures import try_file_limits
from kill_instants import MOST, Killed, edited_plans, one_kill
from kill_two import wakes_at_once
from program_jobs import ALL, Job, job_on
from program_runs import PATIENCE, Cases, Wrong, memory_folder, turns
from program_standins import expect_caught, stand_in

TRIES = 20  # Two that linger meet in nearly every round.
PLACES = (None, 100)  # where the killed wakes start

# Works out the new files and the text in a folder of its own. How it saves comes behind, and where
# that is weakest it lingers: long enough to be met by another, or until it is killed.
WORK = """
mine=$(mktemp -d -p "$scratch") && saved=$3
for kind in '' .book; do
    [ ! -f "$saved$kind" ] || cp "$saved$kind" "$mine/checkpoint$kind"
done
real wake "$2" "$mine/checkpoint" "$4" $5 >"$mine/told" 2>"$mine/said"
end=$?
sed "s|$mine/|${saved%checkpoint}|" "$mine/said" >&2
is_copied=
cmp -s "$mine/checkpoint.book" "$saved.book" && is_copied=yes
linger() { : >"$scratch/lingers"; sleep "$pause"; }
write_slowly() {
    head -c 48 "$mine/$1" >"$2"
    linger
    tail -c +49 "$mine/$1" >>"$2"
}
remove() { [ "$is_copied" ] || rm -f "$saved"; }
put_copy() { [ "$is_copied" ] || mv "$mine/checkpoint.book" "$saved.book"; }
put() { mv "$mine/checkpoint" "$saved"; }
tell() { cat "$mine/told"; exit "$end"; }
"""
IN_PLACE = 'remove; put_copy; write_slowly checkpoint "$saved"; tell'
# One that is too late to rename says nothing of it: it is its checkpoint that has to give it away.
ONE_NAME = """remove; put_copy; write_slowly checkpoint "$saved.aaaaaa"
mv "$saved.aaaaaa" "$saved" 2>&-; tell"""
TOLD_FIRST = 'cat "$mine/told"; remove; put_copy; linger; put; exit "$end"'
REMOVED_FIRST = 'rm -f "$saved"; linger; put_copy; put; tell'
COPIED_IN_PLACE = 'remove; [ "$is_copied" ] || write_slowly checkpoint.book "$saved.book"; put'
COPIED_LAST = "remove; put; linger; put_copy; tell"
OLD_KEPT = "put_copy; linger; put; tell"
REMOVED_LATE = "put_copy; linger; remove; put; tell"
NOT_COMPARED = """cp "$saved" "$mine/checkpoint" && rm "$mine/checkpoint.book"
real wake "$2" "$mine/checkpoint" "$4" >"$mine/told"
remove; put_copy; put; tell"""
# A stand-in that saves well: what the others are caught by is the save, and not their being slow.
WELL = """remove
if [ ! "$is_copied" ]; then
    write_slowly checkpoint.book "$saved.book.$$"
    mv "$saved.book.$$" "$saved.book"
fi
write_slowly checkpoint "$saved.$$"; mv "$saved.$$" "$saved"; tell"""
# Without the work above, which the limits of a failing save would meet too.
NOT_CLEARED = 'real "$@"; end=$?; [ "$end" -eq 0 ] || : >"$3.aaaaaa"; exit "$end"'


def slow_wake(folder, programs, body, pause):
    return stand_in(folder, "wake", programs, f"pause={pause}\n{WORK}{body}")


def kill_at(mark):
    """Waits until the stand-in says that it lingers."""
    def wait(_, process):
        for _ in turns():
            if mark.exists():
                mark.unlink()
                return
            if process.poll() is not None:
                raise Wrong("it ended before it was killed")
    return wait


def kill_from(programs, quiet, plans, body, places, following):
    """Kills it where it is weakest, so that no chance decides whether it is caught."""
    with memory_folder() as own, memory_folder() as folder:
        wrong = slow_wake(own, programs, body, PATIENCE)
        killed = Killed(wrong, folder, plans)
        for place in places:
            with quiet.case(f"a kill from {place}"):
                killed.edit(plans[0])
                killed.begin(place)
                killed.edit(following)
                one_kill(killed, kill_at(pathlib.Path(own) / "lingers"), MOST)


def kill_lingering(programs, quiet, plans, body, _):
    kill_from(programs, quiet, plans, body, PLACES, plans[0])


def kill_edited(programs, quiet, plans, body, _):
    kill_from(programs, quiet, plans, body, PLACES[1:], plans[1])


def meet_lingering(programs, quiet, plans, body, chance):
    """Starts two at once, until one is seen to spoil what the other does or the book is done."""
    with memory_folder() as own, memory_folder() as folder:
        wrong = slow_wake(own, programs, body, 0.1)
        job, place = Job(wrong, folder, plans[0].book), 0
        for _ in range(TRIES):
            with quiet.case("two at once"):
                budgets = chance.sample(range(1, MOST), 2)
                place, _ = wakes_at_once(job, plans, plans[0], place, budgets)
            if quiet.faults or place == plans[0].count:
                return


def fail_saves(programs, quiet, plans, body, _):
    with memory_folder() as own:
        try_file_limits(stand_in(own, "wake", programs, body), quiet, plans[0])


def edit_once(programs, quiet, plans, body, _):
    """Between two wakes, neither of them killed."""
    old, new = plans[:2]
    with memory_folder() as own, job_on(
            slow_wake(own, programs, body, 0), new.book, old.places[100], old.book) as job:
        with quiet.case("an edited book"):
            job.expect_woken(new, 0, ALL, err=job.changed())


# What is wrong, how it saves, what has to catch it, and words of the fault.
WRONG = [
    ("it writes in place", IN_PLACE, kill_lingering, "the copy's book doesn't give the checkpoint"),
    ("its temporary file always has one name", ONE_NAME, meet_lingering, "the checkpoint"),
    ("it tells before it has saved", TOLD_FIRST, kill_lingering, "the checkpoint is the new"),
    ("it removes the old one first", REMOVED_FIRST, kill_lingering, "neither the new checkpoint"),
    ("it removes the old one first, beside another", REMOVED_FIRST, meet_lingering,
     "a look finds the checkpoint None"),
    ("it leaves its temporary file when it fails", NOT_CLEARED, fail_saves, "the folder, where"),
    ("it writes the copy in place", COPIED_IN_PLACE, kill_edited, "neither the new checkpoint"),
    ("it saves the copy after the checkpoint", COPIED_LAST, kill_edited, "the copy's book doesn't"),
    ("it keeps the old checkpoint", OLD_KEPT, kill_edited, "the copy's book doesn't give"),
    ("it removes the old one once the copy is saved", REMOVED_LATE, kill_edited,
     "the copy's book doesn't give"),
    ("it never compares", NOT_COMPARED, edit_once, "standard output is b'moved 182"),
]


def try_standins(programs, cases, plan, chance):
    plans = edited_plans(programs, plan)
    for name, body, attempt, words in WRONG:
        with cases.case(f"a wrong wake is caught: {name}"):
            quiet = Cases(quiet=True)
            attempt(programs, quiet, plans, body, chance)
            expect_caught(quiet, words)
    for attempt in (kill_lingering, kill_edited, meet_lingering, edit_once):
        with cases.case(f"a slow wake that saves well passes {attempt.__name__}"):
            quiet = Cases(quiet=True)
            attempt(programs, quiet, plans, WELL, chance)
            if quiet.faults:
                raise Wrong(quiet.faults[0])
