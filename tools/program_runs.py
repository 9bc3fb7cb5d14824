"""Runs built programs for the tests beside it, and counts their cases."""
import argparse
import collections
import contextlib
import os
import pathlib
import re
import shlex
import signal
import subprocess
import sys
import tempfile
import time

ROOT = pathlib.Path(__file__).resolve().parent.parent
PLANT = ROOT / "examples/plant.book"
# No run takes a second, but a busy machine is given all the time it may want.
PATIENCE = 300

# What a program ends with: it did what it is for, it told of a failure, its arguments are wrong, or
# it printed a refusal, in `tablet` behind the name of a book.
WORKED, FAILED, MISUSED, TURNED_AWAY = range(4)
REFUSAL = re.compile(rb"^(?:\S+ )?refused \d", re.M)

Answer = collections.namedtuple("Answer", "status out err")


class Wrong(Exception):
    """What a case saw that it shouldn't have."""


class Cases:
    """Counts named cases. A case fails by any exception, and the others still run."""

    def __init__(self, quiet=False):
        self.quiet = quiet
        self.passed = 0
        self.faults = []
        self.began = time.monotonic()

    @contextlib.contextmanager
    def case(self, name):
        try:
            yield
        except Exception as fault:
            kind = "" if isinstance(fault, Wrong) else type(fault).__name__ + " "
            self.faults.append(f"{name}: {kind}{fault}")
            self.note("FAILED " + self.faults[-1])
        else:
            self.passed += 1

    def note(self, text):
        """Says what was measured, counted or left out."""
        if not self.quiet:
            print(text, flush=True)

    def tell(self, group):
        """Tells how far the test is, since some groups take long."""
        seconds = time.monotonic() - self.began
        self.note(f"{seconds:6.1f} s  {self.passed + len(self.faults):4d} cases  after {group}")

    def finish(self):
        print(f"{self.passed} passed, {len(self.faults)} failed")
        sys.exit(bool(self.faults) or not self.passed)


class Programs:
    """The programs as one command runs them, which takes a program's name and its arguments."""

    def __init__(self, command):
        self.command = command

    def start(self, name, *args, **options):
        """In a session of its own, so that a kill reaches whatever the command has started."""
        return subprocess.Popen([*self.command, name, *args], start_new_session=True, **options)

    def run(self, name, *args, data=b"", **options):
        """Runs to the end. The input is a file, or data through a pipe."""
        if "stdin" not in options:
            options["input"] = data
        options.setdefault("stdout", subprocess.PIPE)
        ran = subprocess.run([*self.command, name, *args], stderr=subprocess.PIPE,
                             timeout=PATIENCE, check=False, **options)
        return Answer(ran.returncode, ran.stdout, ran.stderr)


def memory_folder():
    """A temporary folder, in memory where that can be: most saves needn't wait for a disk."""
    return tempfile.TemporaryDirectory(dir="/dev/shm" if os.access("/dev/shm", os.W_OK) else None)


def turns():
    """The turns of a loop that waits for a program, until patience ends."""
    until = time.monotonic() + PATIENCE
    while time.monotonic() < until:
        yield
    raise Wrong(f"it takes more than {PATIENCE} s")


def kill(process):
    """Kills it and all that it started. Once it was waited for, its number may be another's."""
    if process.poll() is None:
        os.killpg(process.pid, signal.SIGKILL)


def cut(content):
    """A long output in a fault would hide the other faults."""
    text = repr(content)
    return text if len(text) < 300 else f"{text[:200]}.. ({len(content)} long)"


def expect(seen, wanted, what):
    if seen == wanted:
        return
    if isinstance(wanted, dict):
        # Of a folder, what is the same would hide what isn't.
        same = {key for key in wanted if key in seen and seen[key] == wanted[key]}
        seen, wanted = ({key: each[key] for key in each if key not in same}
                        for each in (seen, wanted))
        what += ", where it differs,"
    raise Wrong(f"{what} is {cut(seen)}, not {cut(wanted)}")


def ended_by(answer, number):
    """Whether a signal ended it. A command that becomes the program has the signal itself."""
    return answer.status in (128 + number, -number)


def expect_answer(answer, status, out, err=b""):
    """Exactly these, where standard output was read."""
    expect(answer.err, err, "standard error")
    expect(answer.out, out, "standard output")
    expect(answer.status, status, "the exit status")


def expect_told(answer, text, err=b""):
    """Exactly the text on standard output. The status says whether there is a refusal in it."""
    expect_answer(answer, TURNED_AWAY if REFUSAL.search(text) else WORKED, text, err)


def expect_line(answer, words, status=FAILED):
    """One line on standard error with these words, so that no other fault is taken for it."""
    line = answer.err
    if line.count(b"\n") != 1 or not line.endswith(b"\n") or words not in line:
        raise Wrong(f"standard error is {cut(line)}, not one line with {words!r}")
    expect(answer.status, status, "the exit status")


def expect_failure(answer, words, status=FAILED):
    expect_line(answer, words, status)
    expect(answer.out, b"", "standard output")


def parse_options(description, **more):
    """Reads the command line: which command runs the programs, and what a test adds."""
    parser = argparse.ArgumentParser(description=description)
    parser.add_argument("--program", default=shlex.quote(str(ROOT / "tools/program")),
                        help="what runs a program, instead of tools/program")
    for name, help_text in more.items():
        parser.add_argument("--" + name, action="store_true", help=help_text)
    return parser.parse_args()
