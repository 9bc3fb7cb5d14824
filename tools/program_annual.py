"""What `annual` prints, held against the requirements' example, sums worked by hand and a report
that was reckoned apart."""
import contextlib
import fcntl
import itertools
import os
import re
import socket
import subprocess
import sys
import tempfile
import termios
import time

from program_books import LINE, MOST_ANNUAL, TONNE, book, fuel_line, fuel_record, pad, patch
from program_books import report, trailer, unit_line
from program_runs import FAILED, MISUSED, PATIENCE, PLANT, ROOT, Answer, Wrong, expect
from program_runs import expect_answer, expect_told, kill, turns

EXAMPLE = b"""\
year 2010
records 1
fossil-co2-kg 1900
biomass-co2-kg 0
ch4-kg 0
n2o-kg 0
co2e-kg 1902
must-report no
"""
# One delivery of P1 gives these to fossil CO2, biomass CO2, CH4 and N2O, in ng.
P1_MASSES = (1_900_000_000_000_000, 0, 34_200_000_000, 3_420_000_000)
ONE = book()
TRAILER = len(ONE) - LINE  # where it starts in this book
ROOM = MOST_ANNUAL // LINE - 3  # records, beside a unit, a fuel and the trailer
FULL = book([fuel_record()] * ROOM)  # the longest that `annual` takes
LONGER = book([fuel_record()] * (ROOM + 1))  # a right book, which the other programs take

# What is refused, by number. Of two faults the smaller number is given.
REFUSED = {
    "no bytes": (20, b""),
    "a line less a byte": (20, ONE[:LINE - 1]),
    "a book less its last byte": (20, ONE[:-1]),
    "a book and a byte": (20, ONE + b"\0"),
    "a line of zero bytes": (21, bytes(LINE)),
    "another signature": (21, patch(ONE, TRAILER, b"STCA")),
    "version 2": (21, patch(ONE, TRAILER + 4, b"\2")),
    "a byte of the trailer that must be 0": (21, patch(ONE, TRAILER + 6, b"\1")),
    "a third set of warming values": (21, book(warming_set=2)),
    "warming values of set 255": (21, book(warming_set=255)),
    "byte 18 of the trailer": (21, patch(ONE, TRAILER + 18, b"\1")),
    "byte 19 of the trailer": (21, patch(ONE, TRAILER + 19, b"\x80")),
    "byte 21 of the trailer": (21, patch(ONE, TRAILER + 21, b"\1")),
    "byte 31 of the trailer": (21, patch(ONE, TRAILER + 31, b"\x80")),
    "year 1999": (21, book(year=1999)),
    "year 2100": (21, book(year=2100)),
    "unit lines past fuel lines": (21, ONE[:TRAILER] + trailer(3 * LINE, 2 * LINE)),
    "fuel lines past the trailer": (21, ONE[:TRAILER] + trailer(LINE, 4 * LINE)),
    "a start within a line": (21, ONE[:TRAILER] + trailer(LINE // 2, 2 * LINE)),
    "unit number 0": (22, book(units=[unit_line(0)])),
    "a unit's rating of 0": (22, book(units=[unit_line(rating=0)])),
    "a unit's rating of 100,001": (22, book(units=[unit_line(rating=100_001)])),
    "a dry unit without a monitor": (22, book(units=[unit_line(dry=True)])),
    "a third flag of a unit": (22, book(units=[patch(unit_line(), 2, b"\7")])),
    "a unit's highest flag": (22, book(units=[patch(unit_line(), 2, b"\x81")])),
    "two units of one number": (22, book(units=[unit_line(), unit_line()])),
    "65 units": (22, book(units=[unit_line(i) for i in range(1, 66)])),
    "a wrong unit and a wrong fuel": (22, book(units=[unit_line(0)], fuels=[fuel_line(0)])),
    "fuel number 0": (23, book(fuels=[fuel_line(0)])),
    "fuel kind 4": (23, book(fuels=[fuel_line(kind=4, fuel_class=0)])),
    "a liquid natural gas": (23, book(fuels=[fuel_line(kind=2)])),
    "no CO2 factor": (23, book(fuels=[fuel_line(co2=0)])),
    "fuels that fall": (23, book(fuels=[fuel_line(2), fuel_line(1)])),
    "65 fuels": (23, book(fuels=[fuel_line(i) for i in range(1, 66)])),
}


def site(fossil, biomass, ch4=0, n2o=0, warming_set=0):
    """A book with so many tonnes of each ledger. A unit of fuel gives a kilogram of CO2, or 10 g of
    CH4 or of N2O; the CO2 of these two is left to their unit's monitor, which has no hours."""
    gas = fuel_line(1, 3, 0, heat=100_000, co2=10_000, ch4=0, n2o=0)
    wood = fuel_line(2, 1, 3, heat=100_000, co2=10_000, ch4=0, n2o=0)
    methane = fuel_line(3, 3, 0, heat=100_000, co2=1, ch4=100_000, n2o=0)
    nitrous = fuel_line(4, 3, 0, heat=100_000, co2=1, ch4=0, n2o=100_000)
    burned = [fuel_record(1000 * fossil), fuel_record(1000 * biomass, fuel=2),
              fuel_record(100_000 * ch4, unit=2, fuel=3),
              fuel_record(100_000 * n2o, unit=2, fuel=4)]
    return book(burned, [unit_line(1), unit_line(2, monitor=True)], [gas, wood, methane, nitrous],
                warming_set=warming_set)


# Tonnes of fossil and biomass CO2, and the decision that the requirements work out by hand.
DECISIONS = {
    "P10, exactly 10,000 t": (10_000, 0, b"yes"),
    "a tonne less than P10": (9_999, 0, b"no"),
    "P11, 24,999 t of which 16,000 t are wood's": (8_999, 16_000, b"no"),
    "P12, exactly 25,000 t of which 16,000 t are wood's": (9_000, 16_000, b"yes"),
}


def in_pieces(programs, name, data, sizes):
    """Runs with input that comes in pieces of these sizes, over and over."""
    reading, writing = os.pipe()
    process = programs.start(name, stdin=reading, stdout=subprocess.PIPE, stderr=subprocess.PIPE)
    feed(process, (reading, writing), data, sizes)
    os.close(writing)
    out, err = process.communicate(timeout=PATIENCE)
    os.close(reading)
    return Answer(process.returncode, out, err)


def feed(process, pipe, data, sizes):
    """Sends pieces, each of which a pipe holds, when the one before has been read. One that isn't
    read before the program ends is the last."""
    reading, writing = pipe
    at = 0
    for size in itertools.cycle(sizes):
        if at >= len(data) or process.poll() is not None:
            return
        os.write(writing, data[at:at + size])
        at += size
        await_reading(process, reading)


CUT_OFF = b"standard input: Connection reset by peer\n"


def cut_off(programs, name, data):
    """Runs with these bytes, behind which a read fails: the sender goes without having read what
    was sent to it. A program may end before it has read them all."""
    sender, receiver = socket.socketpair()
    with sender:
        with receiver:
            receiver.send(b"x")
            process = programs.start(name, stdin=receiver, stdout=subprocess.PIPE,
                                     stderr=subprocess.PIPE)
        with contextlib.suppress(BrokenPipeError, ConnectionResetError):
            sender.sendall(data)
    out, err = process.communicate(timeout=PATIENCE)
    return Answer(process.returncode, out, err)


def await_reading(process, pipe):
    """Waits until a program has read all that the pipe holds, or has ended."""
    for _ in turns():
        if not bytes_in(pipe) or process.poll() is not None:
            return
        time.sleep(0.0001)


def bytes_in(pipe):
    return int.from_bytes(fcntl.ioctl(pipe, termios.FIONREAD, bytes(4)), sys.byteorder)


def book_in_format_page():
    page = (ROOT / "docs/FORMAT.md").read_text(encoding="utf-8")
    rows = re.findall(r"^[0-9a-f]{4}  ((?:[0-9a-f]{2} ?){16})$", page, re.M)
    return bytes.fromhex(" ".join(rows))


def try_reports(programs, cases):
    plant, told = PLANT.read_bytes(), (ROOT / "examples/plant.report").read_bytes()
    with cases.case("docs/FORMAT.md shows the book that is made here"):
        expect(book_in_format_page(), ONE, "the book")
    with cases.case("annual: the example of 128 bytes"):
        expect_told(programs.run("annual", data=ONE), EXAMPLE)
    with cases.case("annual: the example, byte by byte through a pipe"):
        expect_told(in_pieces(programs, "annual", ONE, [1]), EXAMPLE)
    with cases.case("annual: examples/plant.book, as examples/plant.report says"):
        expect_told(programs.run("annual", data=plant), told)
    with cases.case("annual: examples/plant.book as a file"), open(PLANT, "rb") as file:
        expect_told(programs.run("annual", stdin=file), told)
    with cases.case("annual: examples/plant.book in odd pieces"):
        odd = [1, LINE - 1, LINE + 1, 7, 1025, 101]
        expect_told(in_pieces(programs, "annual", plant, odd), told)
    with cases.case("annual: a trailer alone, whose totals are 0"):
        empty = trailer(0, 0, year=2099)
        expect_told(programs.run("annual", data=empty), report(empty, (0, 0, 0, 0)))


# How a stream comes: in odd pieces, and with a stop before or after byte 65,536, where only another
# read tells whether it goes on.
PIECES = {"odd": [4097, 1, 9999], "65,536 first": [MOST_ANNUAL, 1, LINE],
          "65,535 first": [MOST_ANNUAL - 1, 1, LINE]}


def try_lengths(programs, cases):
    """Books about the most that `annual` takes, however their bytes come. Whatever is longer is
    refused for that, though a book may be longer."""
    shorter = book([fuel_record()] * (ROOM - 1))
    for of, count in ((shorter, ROOM - 1), (FULL, ROOM)):
        told = report(of, [count * mass for mass in P1_MASSES])
        with cases.case(f"annual: a book of {len(of)} bytes"):
            expect_told(programs.run("annual", data=of), told)
        for kind, sizes in PIECES.items():
            with cases.case(f"annual: a book of {len(of)} bytes in pieces, {kind}"):
                expect_told(in_pieces(programs, "annual", of, sizes), told)
        with cases.case(f"annual: a book of {len(of)} bytes as a file"), \
                tempfile.TemporaryFile() as file:
            file.write(of)
            file.seek(0)
            expect_told(programs.run("annual", stdin=file), told)
    for more in (FULL + b"\0", LONGER, FULL + FULL):
        with cases.case(f"annual: {len(more)} bytes are refused"):
            expect_told(programs.run("annual", data=more), b"refused 20\n")
        for kind, sizes in PIECES.items():
            with cases.case(f"annual: {len(more)} bytes in pieces are refused, {kind}"):
                expect_told(in_pieces(programs, "annual", more, sizes), b"refused 20\n")


def try_cut_off(programs, cases):
    """A read that fails, also the one that only asks whether the input goes on."""
    for of in (b"", ONE, FULL[:-1], FULL):
        with cases.case(f"annual: a read fails after {len(of)} bytes"):
            expect_answer(cut_off(programs, "annual", of), FAILED, b"", CUT_OFF)
    with cases.case("annual: what comes behind a byte too many isn't read"):
        expect_told(cut_off(programs, "annual", FULL + b"\0"), b"refused 20\n")


def try_decisions(programs, cases):
    for name, (fossil, biomass, decision) in DECISIONS.items():
        with cases.case(f"annual: {name}"):
            of = site(fossil, biomass)
            wanted = report(of, (fossil * TONNE, biomass * TONNE, 0, 0))
            expect(wanted.split()[-1], decision, "this script's own decision")
            expect_told(programs.run("annual", data=of), wanted)


def try_refusals(programs, cases):
    for name, (number, of) in REFUSED.items():
        for program in ("annual", "lines"):
            with cases.case(f"{program}: {name} is refused with {number}"):
                expect_told(programs.run(program, data=of), f"refused {number}\n".encode())
    try_set_aside(programs, cases)


def try_set_aside(programs, cases):
    large = book(units=[unit_line(rating=2501)])
    with cases.case("annual: a record set aside"):
        expect_told(programs.run("annual", data=large), b"refused 41 record 0 reason 6\n")
    with cases.case("annual: the first of two records set aside"):
        of = book([fuel_record(), fuel_record(month=13), pad(b"")])
        expect_told(programs.run("annual", data=of), b"refused 41 record 1 reason 4\n")


def unread(programs, name, *args):
    """Runs with a byte in a pipe that stays open: a program that reads would wait for more."""
    reading, writing = os.pipe()
    os.write(writing, b"x")
    process = programs.start(name, *args, stdin=reading, stdout=subprocess.PIPE,
                             stderr=subprocess.PIPE)
    try:
        await_reading(process, reading)
        if not bytes_in(reading):
            raise Wrong("it reads its input")
        out, err = process.communicate(timeout=PATIENCE)
        return Answer(process.returncode, out, err)
    finally:
        kill(process)
        os.close(reading)
        os.close(writing)


def try_usage(programs, cases, name, wanted):
    for args in (["x"], [str(PLANT)], [""], ["--help"], ["x", "y"]):
        with cases.case(f"{name}: it takes no arguments, {args}"):
            expect_answer(unread(programs, name, *args), MISUSED, b"",
                          b"usage: %s <%s\n" % (name.encode(), wanted))


def try_failures(programs, cases, name, inputs):
    """A read and a write that fail. Of what is printed, nobody could say that it is all."""
    with tempfile.TemporaryDirectory() as folder, cases.case(f"{name}: its input is a folder"):
        entry = os.open(folder, os.O_RDONLY)
        answer = programs.run(name, stdin=entry)
        os.close(entry)
        expect_answer(answer, FAILED, b"", b"standard input: Is a directory\n")
    for kind, data in inputs.items():
        with cases.case(f"{name}: its output is a full device, {kind}"), open(
                "/dev/full", "wb") as full:
            answer = programs.run(name, data=data, stdout=full)
            expect_answer(answer, FAILED, None, b"standard output: No space left on device\n")


# What a program that reads a book has to print: its answer, or that the book is refused.
BOOKS = {"a sound book": ONE, "a refused book": REFUSED["no bytes"][1]}


def try_annual(programs, cases):
    try_reports(programs, cases)
    try_lengths(programs, cases)
    try_cut_off(programs, cases)
    try_decisions(programs, cases)
    try_refusals(programs, cases)
    try_usage(programs, cases, "annual", b"BOOK")
    try_failures(programs, cases, "annual", BOOKS)
