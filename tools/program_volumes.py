"""The molar volume of a fuel line: which ones a book may have, on fuel of any kind, and that each
gas is weighed by its own."""
import fractions
import itertools

from program_annual import P1_MASSES
from program_books import LINE, book, fuel_line, fuel_record, gas_record, patch, report, unit_line
from program_gas import METHANE_MASS
from program_jobs import wakes_by_replay
from program_judge import are_fuels_right
from program_model import burned, expect_answered, fuel_words, lines_of
from program_replay import RECORD, frame, record_answer
from program_runs import expect, expect_told

RIGHT = (0, 20_000, 20_001, 24_060, 26_999, 27_000)
# One less than the range and one more, all bits and every one, and 24,060 beside or in other bytes.
WRONG = (19_999, 27_001, 2**32 - 1, *(1 << bit for bit in range(32)), 65_536 + 24_060, 24_060 << 8,
         24_060 << 16)
EDGES = (*RIGHT, 1, 19_999, 27_001, 2**32 - 1)
# Kind and class of fuel.
SORTS = {"gas": (3, 0), "natural gas": (3, 1), "a liquid": (2, 0), "oil": (2, 2), "a solid": (1, 0),
         "wood": (1, 3)}
MOST_FUELS = 64


def expect_numbers(programs, books, wanted):
    """What refuses each book, 0 if nothing does."""
    numbers = [number for number, _ in wakes_by_replay(programs, [(of, 1) for of in books])]
    expect(numbers, wanted, "the list of numbers")


def try_volume_books(programs, cases, name):
    """A book with a molar volume is refused, or its deliveries are what they are without one."""
    kind, fuel_class = SORTS[name]
    for volume in EDGES:
        of = book(fuels=[fuel_line(1, kind, fuel_class, molar_volume=volume)])
        fossil, _, ch4, n2o = P1_MASSES
        is_wood = fuel_class == 3
        ledger = "biomass" if is_wood else "fossil"
        lines = lines_of([fuel_words(1, ledger, fossil // 1000, ch4, n2o)])
        told = report(of, (0, fossil, ch4, n2o) if is_wood else P1_MASSES)
        if volume not in RIGHT:
            lines = told = b"refused 23\n"
        with cases.case(f"lines and annual: {name} with a molar volume of {volume}"):
            expect_told(programs.run("lines", data=of), lines)
            expect_told(programs.run("annual", data=of), told)


def try_gas_volumes(programs, cases):
    try_volume_books(programs, cases, "natural gas")


def try_volume_bytes(programs, cases):
    lines = [fuel_line(1, *sort, molar_volume=volume)
             for sort in SORTS.values() for volume in (*RIGHT, *WRONG)]
    wanted = len(SORTS) * (len(RIGHT) * [0] + len(WRONG) * [23])
    with cases.case("the judge says which molar volumes are right"):
        expect([0 if are_fuels_right(line) else 23 for line in lines], wanted, "the list")
    with cases.case("replay: molar volumes with every bit, of every sort of fuel"):
        expect_numbers(programs, [book(fuels=[line]) for line in lines], wanted)
    with cases.case("replay: bytes behind a molar volume"):
        line = fuel_line(molar_volume=24_060)
        behind = [patch(line, at, b"\1") for at in range(24, LINE)]
        expect_numbers(programs, [book(fuels=[line]) for line in behind], [23] * len(behind))
    with cases.case("replay: a wrong molar volume beside a wrong unit"):
        of = book(units=[unit_line(0)], fuels=[fuel_line(molar_volume=1)])
        expect_numbers(programs, [of], [22])


def try_volume_places(programs, cases):
    """A wrong one is found at each place among as many fuels as there may be."""
    fuels = [fuel_line(number, molar_volume=24_060) for number in range(1, 1 + MOST_FUELS)]
    books = [book(fuels=fuels)]
    for place in range(MOST_FUELS):
        wrong = fuel_line(place + 1, molar_volume=27_001)
        books.append(book(fuels=[*fuels[:place], wrong, *fuels[place + 1:]]))
    with cases.case(f"replay: a wrong molar volume at each place of {MOST_FUELS} fuels"):
        expect_numbers(programs, books, [0] + MOST_FUELS * [23])


def try_every_volume(programs, cases):
    """Methane by each: 1,000 × 748,600 × 16,040 × 3,664 µg over the molar volume."""
    calls = []
    for volume in range(19_990, 27_011):
        of = book([gas_record()], fuels=[fuel_line(molar_volume=volume)])
        mass = round(fractions.Fraction(43_995_641_216_000_000, volume))
        right = record_answer(method=3, ledger=1, masses=(mass, 34_200_000_000, 3_420_000_000))
        is_right = 20_000 <= volume <= 27_000
        calls.append((frame(RECORD, 0, of), right if is_right else record_answer(23)))
    with cases.case("replay: methane with every molar volume"):
        expect_answered(programs, calls)


def try_own_volumes(programs, cases):
    """Gases with molar volumes of their own in one book, whichever line comes first."""
    masses = {24_060: METHANE_MASS, 23_670: 1_858_708_965_610, 27_000: 1_629_468_193_185}
    for volumes in itertools.permutations(masses):
        fuels = [fuel_line(number, molar_volume=volume) for number, volume in enumerate(volumes, 1)]
        drawn = [1, 2, 3, 3, 2, 1, 1]
        records = [*(gas_record(fuel=fuel) for fuel in drawn), fuel_record(fuel=2)]
        wanted = [burned(3, masses[volumes[fuel - 1]]) for fuel in drawn]
        wanted += [burned(1, 1_900_000_000_000)]
        with cases.case(f"lines: gases with molar volumes of {volumes}"):
            of = book(records, fuels=fuels)
            expect_told(programs.run("lines", data=of), lines_of(wanted))


def try_volumes(programs, cases):
    for name in SORTS:
        try_volume_books(programs, cases, name)
    for attempt in (try_volume_bytes, try_volume_places, try_every_volume, try_own_volumes):
        attempt(programs, cases)
