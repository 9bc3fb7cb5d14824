"""Hours of units that measure dry gas: what `lines` and `annual` make of moisture at its edges, and
where it mustn't stand."""
import fractions
import itertools
import struct

from program_books import LINE, book, fuel_record, hour_record, patch, report
from program_jobs import wakes_by_replay
from program_judge import are_units_right, judge_hour
from program_lines import FUELS, UNITS, try_forms, try_together
from program_runs import expect, expect_told

SORTS = UNMONITORED, WET, UNLISTED, DRY = 1, 3, 4, 5  # by UNITS


def hour_of(co2):
    return f"hour fossil co2-ug {co2} ch4-ng 0 n2o-ng 0"


def p7(unit=DRY, **more):
    """The readings of P7, percent × flow being 25,000,000."""
    return hour_record(12.5, 2_000_000, unit=unit, **more)


# Each with what stands behind the index: 518 times the whole number nearest to percent × flow ×
# (1,000 − moisture).
DRY_HOURS = [
    ("P7 of a dry unit", p7(), hour_of(12_950_000_000_000)),
    ("moisture of 0.1 %", p7(moisture=1), hour_of(12_937_050_000_000)),
    ("moisture of 5.0 %", p7(moisture=50), hour_of(12_302_500_000_000)),
    ("moisture in the higher byte", p7(moisture=256), hour_of(9_634_800_000_000)),
    ("moisture of 50.0 %", p7(moisture=500), hour_of(6_475_000_000_000)),
    ("moisture of 99.9 %", p7(moisture=999), hour_of(12_950_000_000)),
    ("moisture of 100.0 %", p7(moisture=1_000), hour_of(0)),
    ("moisture of 100.1 %", p7(moisture=1_001), "reason 4"),
    ("the highest moisture", p7(moisture=65_535), "reason 4"),
    # R is the even one beside 1,498.5 and 499.5, 1.5 and 0.5.
    ("an odd multiple, even below", hour_record(0.5, 3, DRY, moisture=1), hour_of(775_964)),
    ("an odd multiple, even above", hour_record(0.5, 1, DRY, moisture=1), hour_of(259_000)),
    ("the multiple 1, even below", hour_record(0.5, 1, DRY, moisture=999), hour_of(0)),
    ("the multiple 1, even above", hour_record(0.5, 3, DRY, moisture=999), hour_of(1_036)),
    # 112.5, so R is 112. Without moisture it is 188, six tenths of which would be 112.8.
    ("P9 with moisture of 40.0 %", hour_record(0.75, 0.25, DRY, moisture=400), hour_of(58_016)),
    ("a dry unit's fuel", fuel_record(unit=DRY),
     "method 4 none co2-ug 0 ch4-ng 34200000000 n2o-ng 3420000000"),
    ("moisture on a wet unit", p7(WET, moisture=1), "reason 1"),
    ("a wet unit's moisture of 100.0 %", p7(WET, moisture=1_000), "reason 1"),
    ("a wet unit's moisture past the range", p7(WET, moisture=1_001), "reason 1"),
    ("a wet unit's moisture, and hour 0", p7(WET, moisture=1, hour=0), "reason 1"),
    ("moisture without a monitor", p7(UNMONITORED, moisture=1), "reason 1"),
    ("no moisture and no monitor", p7(UNMONITORED), "reason 5"),
    ("hour 0 without a monitor", p7(UNMONITORED, hour=0), "reason 4"),
    ("moisture on an unlisted unit", p7(UNLISTED, moisture=1), "reason 2"),
    ("an unlisted unit's moisture past the range", p7(UNLISTED, moisture=1_001), "reason 2"),
    ("byte 18 behind moisture", patch(p7(moisture=1), 18, b"\1"), "reason 1"),
    ("byte 18 on an unlisted unit", patch(p7(UNLISTED, moisture=1), 18, b"\1"), "reason 1"),
    ("flags beside moisture", patch(p7(moisture=1), 1, b"\1"), "reason 1"),
    ("a dry unit's hour 0", p7(hour=0), "reason 4"),
    ("a dry unit's percent NaN", patch(p7(moisture=1_000), 8, b"\0\0\xc0\x7f"), "reason 4"),
]
MOISTURES = (0, 1, 500, 999, 1_000, 1_001, 65_535)
HUNDRED, BILLION, INFINITE, NAN = 0x42C80000, 0x4E6E6B28, 0x7F800000, 0x7FC00000
# Zeros, the least and the most subnormal, then 1/16, 1/8, 3/8, 0.5, 1.5 and 12.5, and the limit.
PERCENTS = (0, 0x80000000, 1, 0x7FFFFF, 0x3D800000, 0x3E000000, 0x3EC00000, 0x3F000000, 0x3FC00000,
            0x41480000, HUNDRED, HUNDRED + 1, INFINITE, NAN, 0x80000001)
# The same zeros and subnormals, then 1, 3, 100,000.125 and 2,000,000, and the limit.
FLOWS = (0, 0x80000000, 1, 0x7FFFFF, 0x3F800000, 0x40400000, 0x47C35010, 0x49F42400, BILLION,
         BILLION + 1, INFINITE, NAN, 0x80000001)


def wanted_of(record):
    """What stands behind the index of an hour, by the judge."""
    told, number = judge_hour(record, b"".join(UNITS))
    return f"reason {number}" if told == "reason" else hour_of(number)


def expect_judged(programs, records):
    """`lines` prints what the judge says of each of these hours."""
    lines = [f"record {i} {wanted_of(record)}\n" for i, record in enumerate(records)]
    expect_told(programs.run("lines", data=book(records, UNITS, FUELS)), "".join(lines).encode())


def try_own_dry(cases):
    with cases.case("the judge says what is worked by hand of every hour"):
        for name, record, wanted in DRY_HOURS:
            if record[0] == 2:
                expect(wanted_of(record), wanted, name)


def try_edges(programs, cases):
    """The same readings on every sort of unit, side by side."""
    edges = list(itertools.product(PERCENTS, FLOWS, SORTS))
    for moisture in MOISTURES:
        records = [patch(p7(unit, hour=hour, moisture=moisture), 8, struct.pack("<II", *readings))
                   for hour, (*readings, unit) in enumerate(edges, 1)]
        with cases.case(f"lines: moisture {moisture} on every unit, with every pair of readings"):
            expect_judged(programs, records)


def faults_of(hour):
    """An hour as it is, and with each fault beside its moisture: of two, one reason is told."""
    yield hour
    yield from (patch(hour, at, b"\1") for at in (1, 4, 5, *range(18, LINE)))
    yield from (patch(hour, 6, struct.pack("<H", number)) for number in (0, 8_785, 65_535))
    yield from (patch(hour, at, struct.pack("<I", NAN)) for at in (8, 12))


def try_order(programs, cases):
    hours = enumerate(itertools.product(SORTS, MOISTURES), 1)
    records = [faulty for hour, (unit, moisture) in hours
               for faulty in faults_of(p7(unit, hour=hour, moisture=moisture))]
    with cases.case("lines: every fault beside every moisture, on every unit"):
        expect_judged(programs, records)


def try_every_moisture(programs, cases):
    """With half a percent of an odd flow: where the multiple is odd too, R comes from a half. It is
    rounded for each hour, and the sum once more in the report alone."""
    flows = (2**24 - 3, 2**24 - 1)  # the highest odd numbers that a single holds
    hours = enumerate(itertools.product(flows, range(1_001)), 1)
    records = [hour_record(0.5, flow, DRY, hour, moisture) for hour, (flow, moisture) in hours]
    halves = [flow * multiple for flow in flows for multiple in range(1_001)]
    with cases.case("halves of R have the even number below as often as above"):
        expect([sum(half % 4 == way for half in halves) for way in (1, 3)], [500, 500], "the list")
    with cases.case("lines: every moisture, with halves of R"):
        expect_judged(programs, records)
    with cases.case("annual: every moisture, with halves of R"):
        of = book(records, UNITS, [])
        rounded = sum(round(fractions.Fraction(half, 2)) for half in halves)
        expect_told(programs.run("annual", data=of), report(of, (518_000 * rounded, 0, 0, 0)))


def try_aside(programs, cases):
    for reason, record in ((1, p7(WET, moisture=1)), (2, p7(UNLISTED, moisture=1)),
                           (4, p7(hour=2, moisture=1_001))):
        with cases.case(f"annual: moisture that is set aside for reason {reason}"):
            of = book([p7(moisture=1_000), record], UNITS, [])
            expect_told(programs.run("annual", data=of),
                        f"refused 41 record 1 reason {reason}\n".encode())


def try_flags(programs, cases):
    """A monitor alone, or with dry gas, or neither; no other pattern of the flags is right."""
    patterns = [patch(UNITS[0], 2, bytes([flags])) for flags in range(256)]
    wanted = [0, 0, 22, 0] + 252 * [22]
    with cases.case("the judge says which patterns of a unit's flags are right"):
        expect([0 if are_units_right(line) else 22 for line in patterns], wanted, "the list")
    with cases.case("replay: every pattern of a unit's flags"):
        books = [book([p7()], [line, *UNITS[1:]], []) for line in patterns]
        numbers = [number for number, _ in wakes_by_replay(programs, [(of, 1) for of in books])]
        expect(numbers, wanted, "the list of numbers")


def try_dry_book(programs, cases):
    try_together(programs, cases, DRY_HOURS)


def try_dry(programs, cases):
    try_own_dry(cases)
    try_forms(programs, cases, DRY_HOURS)
    for attempt in (try_edges, try_order, try_every_moisture, try_aside, try_flags):
        attempt(programs, cases)
