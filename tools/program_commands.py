"""The commands that run the programs: `tools/program`, which gives them a status and touches
nothing that they read or print, `./run`, which runs the job on a book to its end, and `tools/book
explain`, which asks `lines`; and a program by itself, as another machine has it."""
import os
import pathlib
import re
import shutil
import signal
import subprocess

from program_annual import EXAMPLE, ONE, REFUSED, await_reading
from program_books import book, fuel_record, unit_line
from program_copy import correct
from program_jobs import job_on, plan_by_lines
from program_replay import FRESH, START, STARTED, answer, frame
from program_runs import MISUSED, PATIENCE, PLANT, ROOT, TURNED_AWAY, WORKED, Answer, Wrong
from program_runs import expect, expect_answer, expect_failure, expect_line, expect_told, kill
from program_runs import memory_folder

EVERY_BYTE = bytes(range(256)) * 3
ASIDE = book([fuel_record()] * 150, [unit_line(rating=2501)])


def run_command(*command, **options):
    options = {"stdout": subprocess.PIPE, **options}
    if "input" not in options:
        options["stdin"] = subprocess.DEVNULL
    ran = subprocess.run(command, stderr=subprocess.PIPE, timeout=6 * PATIENCE, check=False,
                         **options)
    return Answer(ran.returncode, ran.stdout, ran.stderr)


def try_usage(programs, cases):
    with cases.case("tools/program: no arguments"):
        expect_answer(run_command(*programs.command), MISUSED, b"",
                      b"usage: tools/program NAME ARGS..\n")
    for name in ("nothing", "", "files"):
        with cases.case(f"tools/program: {name!r} isn't built"):
            expect_failure(programs.run(name), b"is not built")


def try_descriptors(programs, cases):
    """What the program reads and prints is the caller's, and so are all other descriptors."""
    with cases.case("tools/program: every byte goes through"):
        asked = frame(FRESH, 0, b"", EVERY_BYTE, EVERY_BYTE)
        expect_told(programs.run("replay", data=asked), answer(20, out=EVERY_BYTE))
    with cases.case("tools/program: wake leaves its input alone"), job_on(programs, ONE) as job:
        with open(PLANT, "rb") as file:
            expect_told(job.wake(0, stdin=file), b"moved 0\ndone 0 of 1\n")
            expect(os.lseek(file.fileno(), 0, os.SEEK_CUR), 0, "the place in its input")
    with cases.case("tools/program: what two print in a file stands one after the other"), \
            memory_folder() as folder:
        path = pathlib.Path(folder, "told")
        with open(path, "wb") as file:
            for _ in range(2):
                expect_answer(programs.run("annual", data=ONE, stdout=file), WORKED, None)
        expect(path.read_bytes(), 2 * EXAMPLE, "the file")
    with cases.case("tools/program: no status goes to a descriptor of the caller"), \
            memory_folder() as folder:
        path = pathlib.Path(folder, "mine")
        script = 'exec "$@" 3>"$0" 4>>"$0" 5>>"$0"'
        told = run_command("sh", "-c", script, path, *programs.command, "annual")
        expect_told(told, b"refused 20\n")
        expect(path.read_bytes(), b"", "what the caller's file has")


def run_plainly(name, path, program, *args, data=b""):
    """The built program under a name, without tools/program, and with a file as descriptor 3."""
    built = ROOT / "crates" / program / "out" / program
    return run_command("bash", "-c", 'exec -a "$0" "${@:2}" 3>"$1"', name, path, built, *args,
                       input=data)


def try_names(_, cases):
    """A program writes its status as a digit, and only if its name asks for it."""
    runs = {"annual": [(ONE, [], b"0"), (b"", [], b"3"), (b"", ["x"], b"2")],
            "replay": [(START, [], b"0"), (START[:9], [], b"1"), (b"", ["x"], b"2")]}
    for program, attempts in runs.items():
        for data, args, digit in attempts:
            with cases.case(f"{program} that ends with {digit.decode()}, by its name"), \
                    memory_folder() as folder:
                path = pathlib.Path(folder, "status")
                run_plainly("status-on-3", path, program, *args, data=data)
                expect(path.read_bytes(), digit, "what is on descriptor 3")
                for name in ("status-on", "status-on-30", program):
                    run_plainly(name, path, program, *args, data=data)
                    expect(path.read_bytes(), b"", f"what is on descriptor 3 of {name}")


def find_program(process, name):
    """The program that runs below tools/program, by the path that it was built at."""
    for entry in pathlib.Path("/proc").glob("[0-9]*"):
        try:
            built = os.readlink(entry / "exe")
            session = int((entry / "stat").read_text().rpartition(")")[2].split()[3])
        except OSError:
            continue  # It has ended meanwhile.
        if session == process.pid and built.endswith("/out/" + name):
            return int(entry.name)
    raise Wrong(f"{name} isn't among what tools/program started")


def heed_signals():
    """For the child: where this test runs in the background, some may be ignored."""
    for number in (signal.SIGTERM, signal.SIGINT, signal.SIGHUP):
        signal.signal(number, signal.SIG_DFL)


def stop(programs, number, find):
    """A signal to what is found below or at tools/program, once the program has read a frame."""
    reading, writing = os.pipe()
    os.write(writing, START)
    process = programs.start("replay", stdin=reading, stdout=subprocess.PIPE,
                             stderr=subprocess.PIPE, preexec_fn=heed_signals)
    try:
        await_reading(process, reading)
        os.kill(find(process), number)
        out, err = process.communicate(timeout=PATIENCE)
    finally:
        kill(process)
        os.close(reading)
        os.close(writing)
    return Answer(process.returncode, out, err)


def try_signals(programs, cases):
    for number in (signal.SIGKILL, signal.SIGTERM, signal.SIGSEGV):
        with cases.case(f"tools/program: {number.name} ends the program"):
            told = stop(programs, number, lambda process: find_program(process, "replay"))
            expect(told.status, 128 + number, "the exit status")
            expect(STARTED.startswith(told.out), True, f"that {told.out!r} is of its answer")
    for number in (signal.SIGTERM, signal.SIGINT, signal.SIGHUP):
        # Its outputs end, so the program has ended too.
        with cases.case(f"tools/program: {number.name} to it ends the program"):
            told = stop(programs, number, lambda process: process.pid)
            expect(told.status, 128 + number, "the exit status")
    with cases.case("tools/program: a pipe that nobody reads is a failure"):
        reading, writing = os.pipe()
        os.close(reading)
        told = programs.run("replay", data=START, stdout=writing)
        os.close(writing)
        expect_line(told, b"Broken pipe")


def try_program(programs, cases):
    try_usage(programs, cases)
    try_descriptors(programs, cases)
    try_names(programs, cases)
    try_signals(programs, cases)


def run_job(*args):
    return run_command(ROOT / "run", *args)


def expect_report(told, ended, status=WORKED):
    """Whatever wakes there were, the last tells the end, and no figure was told before."""
    lines = re.sub(rb"moved \d+\ndone \d+ of \d+\n", b"", told.out)
    expect((told.status, lines), (status, ended), f"with {told.err!r} on standard error, its end")


def try_run_words(cases):
    with cases.case("./run --help"):
        told = run_job("--help")
        expect((told.status, told.err), (WORKED, b""), "status and standard error")
        expect(told.out[:12], b"usage: ./run", "the start of standard output")
    with cases.case("./run a b"):
        expect_failure(run_job("a", "b"), b"usage: ./run", MISUSED)
    with cases.case("./run ''"):  # A name that is empty isn't the sample's.
        expect_failure(run_job(""), b"usage: ./run", MISUSED)
    with memory_folder() as folder:
        for name in ("gone", "gone/book", ""):
            with cases.case(f"./run: there is no book {name!r} in the folder"):
                expect_failure(run_job(os.path.join(folder, name)), b"run: ")


def try_run(programs, cases):
    try_run_words(cases)
    plant = (ROOT / "examples/plant.report").read_bytes()
    for turn in ("first", "second"):
        with cases.case(f"./run: the sample, a {turn} time"):
            expect_report(run_job(), plant)
    with memory_folder() as folder:
        path = pathlib.Path(folder, "a plant.book")
        books = [PLANT.read_bytes(), correct(PLANT.read_bytes(), 7), correct(PLANT.read_bytes(), 8)]
        plans = [plan_by_lines(programs, of) for of in books]
        for turn, plan in enumerate([*plans, plans[2], plans[0]]):
            with cases.case(f"./run: a book that is edited between its runs, turn {turn}"):
                path.write_bytes(plan.book)
                expect_report(run_job(path), plan.ended)
        with cases.case("./run: a refused book"):
            path.write_bytes(REFUSED["fuel kind 4"][1])
            expect_report(run_job(path), b"refused 23\n", TURNED_AWAY)
        for turn in ("first", "second"):
            with cases.case(f"./run: a record set aside, a {turn} time"):
                path.write_bytes(ASIDE)
                expect_report(run_job(path), b"refused 41 record 0 reason 6\n", TURNED_AWAY)
        with cases.case("./run: a book, by its name alone, from its folder"):
            path.write_bytes(plans[0].book)
            told = run_command(ROOT / "run", path.name, cwd=folder)
            expect_report(told, plans[0].ended)


MISTAKEN = """year 2010
unit 1 rating 250
unit 2 rating 410.5 monitor
fuel 1 gas natural-gas heat 38000 co2 50000 ch4 900 n2o 90
delivery unit 1 fuel 1 month 6  amount 1000
delivery unit 1 fuel 1 month 13 amount 1000   # the year has 12
hour unit 1 hour 1 percent 12.5 flow 2000000
hour unit 2 hour 1 percent 12.5 flow 2000000
hour unit 2 hour 1 percent 12.5 flow 2000000  # resent by the logger
anodes unit 1 month 4 metal 1000000 use 420 sulphur 1.25 ash 0.40 other 0.00
anodes unit 1 month 4 metal 1010000 use 418 sulphur 1.25 ash 0.40 other 0.00  # this was May
gas-delivery unit 1 fuel 1 month 7 amount 1000 carbon 748600 molecular-weight 16040
"""
EXPLAINED = """north.book: 5 of 8 records are set aside
north.txt:6: record 1: delivery unit 1 fuel 1 month 13 amount 1000
  reason 4: a value is out of range: month 13 isn't from 1 to 12
  to do: correct the month
north.txt:7: record 2: hour unit 1 hour 1 percent 12.5 flow 2000000
  reason 5: an hour of a unit without a monitor: unit 1 has none
  to do: correct the hour's unit, or add `monitor` to unit 1
north.txt:9: record 4: hour unit 2 hour 1 percent 12.5 flow 2000000
  reason 8: it repeats an earlier record: record 3 at north.txt:8 has hour 1 of unit 2 too
  to do: keep the right record of this hour and take the others out, or correct the unit or the hour
north.txt:11: record 6: anodes unit 1 month 4 metal 1010000 use 418 sulphur 1.25 ash 0.40 other 0.00
  reason 8: it repeats an earlier record: record 5 at north.txt:10 has anodes of unit 1 for month 4 too
  to do: keep the right record of this month's anodes and take the others out, or correct the unit or the month
north.txt:12: record 7: gas-delivery unit 1 fuel 1 month 7 amount 1000 carbon 748600 molecular-weight 16040
  reason 4: a value is out of range: a gas-delivery needs a molar volume, and fuel 1 has none
  to do: give fuel 1 its `molar-volume`, or correct the fuel
"""


def try_explain(_, cases):
    """The reasons are those that the built `lines` tells."""
    command = ROOT / "tools/book"
    with memory_folder() as folder, cases.case("tools/book explain: five records set aside"):
        pathlib.Path(folder, "north.txt").write_text(MISTAKEN, encoding="utf-8")
        packed = run_command(command, "pack", "north.txt", "north.book", cwd=folder)
        expect(packed.status, WORKED, f"with {packed.err!r} on standard error, the packer's end")
        told = run_command(command, "explain", "north.book", "north.txt", cwd=folder)
        expect_answer(told, TURNED_AWAY, EXPLAINED.encode())
    with cases.case("tools/book explain: the sample"):
        told = run_command(command, "explain", "examples/plant.book", cwd=ROOT)
        expect_answer(told, WORKED, b"examples/plant.book: no record is set aside\n")


def try_alone(_, cases):
    """A program with the loader and the C library beside it, and nothing else that it could use."""
    tools = pathlib.Path(run_command("rt", "doc").out.decode().strip()).parent / "toolchain/lib"
    with memory_folder() as folder, cases.case("wake, as README takes it to another machine"):
        for path in (ROOT / "crates/wake/out/wake", tools / "ld-linux-x86-64.so.2",
                     tools / "libc.so.6", PLANT):
            shutil.copy(path, folder)
        command = ["./ld-linux-x86-64.so.2", "--argv0", "status-on-3", "--library-path", ".",
                   "./wake", PLANT.name, "ours", "2047"]
        told = run_command("/bin/sh", "-c", 'exec "$@" 3>status', "sh", *command, cwd=folder, env={})
        expect_told(told, b"moved 282\ndone 282 of 282\n"
                    + (ROOT / "examples/plant.report").read_bytes())
        expect(pathlib.Path(folder, "status").read_bytes(), b"0", "the digit of its status")


def try_commands(programs, cases):
    try_program(programs, cases)
    try_run(programs, cases)
    try_explain(programs, cases)
    try_alone(programs, cases)
