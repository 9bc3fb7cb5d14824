"""Hours that were sent before: what the programs make of a unit and hour number that stand in an
earlier record of the book, wherever it stands and whatever became of it."""
import collections
import itertools
import struct

from program_books import LINE, MOST_ANNUAL, book, hour_record, patch, unit_line
from program_lines import FUELS
from program_model import AS_HOUR, BUDGETS, DELIVERY, DRY, FAR, IN_MONTH_7, LISTED, UNLISTED
from program_model import UNMONITORED, WET, expect_by_model, judged, lines_of, reason_in
from program_runs import expect, expect_told

NAN = struct.pack("<I", 0x7FC00000)

# Records of a sort that a book may have once: rows of them and a stream, each with its reasons; what
# makes one of a number, and another of the same number; and what the first gives the ledgers, in ng.
Once = collections.namedtuple("Once", "name rows stream reasons make make_other masses")


def sent(hour=7, unit=WET, moisture=0):
    """An hour with the readings of P7."""
    return hour_record(12.5, 2_000_000, unit, hour, moisture)


def unread(hour=7, unit=WET, at=8):
    """An hour one of whose readings is no number."""
    return patch(sent(hour, unit), at, NAN)


def stray(at=18, hour=7, unit=WET):
    """An hour with a byte that must be 0."""
    return patch(sent(hour, unit), at, b"\1")


def small(hour=7):
    """An hour with the readings of P8."""
    return hour_record(0.25, 0.25, WET, hour)


# Each with the reasons of its records, worked by hand; 0 is that of a record that counts.
REPEATS = [
    ("an hour sent twice", [sent(), sent()], "08"),
    ("an hour sent again with other readings", [sent(), small()], "08"),
    ("an hour of dry gas, sent again with other moisture",
     [sent(unit=DRY, moisture=1), sent(unit=DRY, moisture=2)], "08"),
    ("three of an hour", [sent(), small(), sent()], "088"),
    ("twelve of an hour", [sent()] * 12, "0" + 11 * "8"),
    ("two hours in turn", [sent(7), sent(8), sent(7), sent(8)], "0088"),
    ("two hours, one within the other", [sent(7), sent(8), sent(8), sent(7)], "0088"),
    ("a delivery between", [sent(), DELIVERY, sent()], "008"),
    ("ten records between", [sent(hour) for hour in (*range(1, 12), 1, 12)], 11 * "0" + "80"),
    ("a flow that is no number first", [unread(at=12), sent(), sent()], "488"),
    ("a percent that is no number twice", [unread(), unread(), sent()], "448"),
    ("moisture on a wet unit first", [sent(moisture=1), sent()], "18"),
    ("moisture past the range first", [sent(unit=DRY, moisture=1_001), sent(unit=DRY)], "48"),
    ("a repeat whose form is wrong", [sent(), stray(), sent()], "018"),
    ("a repeat with moisture on a wet unit", [sent(), sent(moisture=1)], "01"),
    ("a repeat with moisture past the range", [sent(unit=DRY), sent(unit=DRY, moisture=1_001)],
     "04"),
    ("a repeat whose reading is no number", [sent(), unread(), sent()], "048"),
    ("an unlisted unit", [sent(unit=UNLISTED), sent(unit=UNLISTED), sent()], "220"),
    ("a stray byte on an unlisted unit", [sent(unit=UNLISTED), stray(unit=UNLISTED)], "21"),
    ("a unit without a monitor", [sent(unit=UNMONITORED), sent(unit=UNMONITORED), sent()], "550"),
    ("a bad reading and no monitor", [sent(unit=UNMONITORED), unread(unit=UNMONITORED)], "54"),
    ("a delivery with the bytes of the hour", [AS_HOUR, sent(), AS_HOUR, sent()], "3038"),
    ("a delivery in the month of the hour's number", [IN_MONTH_7, sent(), sent()], "008"),
    ("kinds beside an hour's", [patch(sent(), 0, bytes([kind])) for kind in (0, 1, 3, 130, 255)]
     + [sent(), sent()], "1111108"),
    ("the same hour of other units", [sent(), sent(unit=DRY), sent(unit=FAR)], "000"),
    ("other hours of the same unit", [sent(hour) for hour in (7, 6, 8, 263, 1_799, 8_199)],
     "000000"),
    ("unit and hour that change places", [sent(DRY, WET), sent(WET, DRY)], "00"),
    ("the first hour and the last", [sent(1), sent(8_784), sent(1), sent(8_784)], "0088"),
    ("hours past the range", [sent(hour) for hour in (0, 8_785, 65_535, 0, 8_785, 65_535)],
     "444444"),
    # As numbers counted on from unit to unit they would be hour 1 of WET, of DRY or of FAR.
    ("hours past the range, and hour 1 of every unit",
     [*(sent(hour) for hour in (0, 8_785, 8_786, 16_385, 17_569, 17_571, 32_769, 65_535)),
      sent(1), sent(1, DRY), sent(1, FAR)], "44444444000"),
    *((f"byte {at} of the first has to be 0", [stray(at), sent(), sent()], "188")
      for at in (1, 4, 5, 16, 18, 31)),
]
# One of each sort. Under every budget below 22 that is tried, some wake begins with a repeat.
STREAM = [sent(1), sent(1), small(2), sent(2), sent(1), unread(3), sent(3), stray(hour=4), sent(4),
          DELIVERY, sent(1), sent(5), unread(5), sent(1, UNMONITORED), sent(1, UNMONITORED),
          sent(1, UNLISTED), sent(1, UNLISTED), AS_HOUR, sent(7), sent(5, DRY), sent(1), sent(8)]
HOURS = Once("hours", REPEATS, STREAM, "0808848180804552230080", sent, small,
             (12_950_000_000_000_000, 0, 0, 0))


def try_own_repeats(cases, once):
    """The model against the reasons worked by hand."""
    for name, records, reasons in [*once.rows, ("one of each sort", once.stream, once.reasons)]:
        with cases.case(f"the model of {once.name} says what is worked by hand: {name}"):
            told = judged(records, LISTED)
            expect("".join(str(reason_in(words)) for words in told), reasons, "the reasons")
    for budget in BUDGETS[:-1]:
        with cases.case(f"a wake of {budget} begins with a repeat among {once.name} of each sort"):
            expect("8" in once.reasons[budget::budget], True, "that one does")


def try_rows(programs, cases, once):
    for name, records, reasons in once.rows:
        with cases.case(f"lines, annual and replay: {once.name}, {name}"):
            expect_by_model(programs, records)
        if reasons.lstrip("0").startswith("8"):
            with cases.case(f"annual: {once.name}, {name}, in so many words"):
                told = f"refused 41 record {reasons.index('8')} reason 8\n".encode()
                expect_told(programs.run("annual", data=book(records, LISTED, FUELS)), told)


def try_stream(programs, cases, once):
    with cases.case(f"lines: {once.name} of each sort in one book"):
        told = programs.run("lines", data=book(once.stream, LISTED, FUELS))
        expect_told(told, lines_of(judged(once.stream, LISTED)))


def try_repeat_book(programs, cases):
    try_stream(programs, cases, HOURS)


def try_units(programs, cases):
    """On 64 units, whose numbers differ in both bytes, two hours each; then all of them again, and
    before them those of a unit that isn't listed, and so has no place among the others."""
    numbers = [257 * place + 1 for place in range(64)]
    units = [unit_line(number, monitor=True) for number in numbers]
    hours = [sent(hour, number) for hour in (7, 8_784) for number in numbers]
    with cases.case("lines, annual and replay: 64 units with a monitor, every hour once"):
        expect_by_model(programs, hours, units)
    with cases.case("lines, annual and replay: 64 units with a monitor, every hour twice"):
        strange = [sent(hour, UNLISTED) for hour in (7, 8_784)]
        expect_by_model(programs, [*strange, *hours, *reversed(hours)], units)


def crowd():
    """Hours, kinds and faults mixed, on every sort of unit: what a pass sends first comes back in
    the next one, or 256 hours later."""
    sorts = list(itertools.product(
        (UNMONITORED, WET, UNLISTED, DRY, FAR), (0, 1, 256),
        (sent, unread, lambda hour, unit: stray(31, hour, unit),
         lambda hour, unit: patch(sent(hour, unit), 0, b"\3"))))
    # 7 has no divisor in common with the number of sorts, so that a pass has each of them once.
    mixed = [sorts[7 * place % len(sorts)] for place in range(len(sorts))]
    return [make(turn + later, unit) for turn in range(1, 34) for unit, later, make in mixed]


def try_full_books(programs, cases):
    """As many hours as a book of `annual` holds, with one unit and no fuel."""
    room, units = MOST_ANNUAL // LINE - 2, [unit_line(WET, monitor=True)]
    half = range(1, room // 2 + 1)
    books = {
        "every hour once": range(1, room + 1),
        "every hour once, from the last": range(8_784, 8_784 - room, -1),
        "the last repeats the first": [*range(1, room), 1],
        "the last repeats the one before": [*range(1, room), room - 1],
        "one hour alone": [7] * room,
        "every hour twice in a row": [hour for hour in half for _ in range(2)],
        "the second half repeats the first": [*half, *half],
        "the second half is the first, turned round": [*half, *reversed(half)],
    }
    for name, hours in books.items():
        with cases.case(f"lines, annual and replay: a full book, {name}"):
            expect_by_model(programs, [sent(hour) for hour in hours], units, [])
    with cases.case("lines, annual and replay: every sort of hour over and over"):
        expect_by_model(programs, crowd())


def try_once(programs, cases, once):
    try_own_repeats(cases, once)
    try_rows(programs, cases, once)
    try_stream(programs, cases, once)


def try_repeats(programs, cases):
    try_once(programs, cases, HOURS)
    try_units(programs, cases)
    try_full_books(programs, cases)
