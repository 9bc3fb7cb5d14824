"""Analysed gas at the ends of every range, on every sort of unit and of every sort of fuel: by the
judge, which reason is told of two, and how a year of it is rounded."""
import fractions
import itertools
import struct

from program_books import LINE, book, gas_record, patch, report
from program_gas import BARE, BINARY, CLEAN, FUELS, LARGE, LEAST, METHANE, MOST, ODD, OIL, OTHER
from program_gas import UNHEATED, UNKNOWN, UNTOLD
from program_model import DRY, LISTED, UNLISTED, UNMONITORED, WET, burned, expect_by_model, judged
from program_model import lines_of
from program_runs import expect, expect_told

AMOUNTS = (0, 1, 3, 99_999_999, 100_000_000, 100_000_001, 2**32 - 1)
CARBONS = (0, 1, 625, 999_999, 1_000_000, 1_000_001, 2**32 - 1)
WEIGHTS = (0, 1, 9, 199_999, 200_000, 200_001, 2**32 - 1)
HEATS = (0, 1, 35_050, 180_000, 180_001, 200_000, 200_001)
# A place and what is put there: each is a fault by itself, and two may make up for each other.
FAULTS = [*((1, bytes([flags])) for flags in (1, 2, 4, 5, 8)),
          *((12, struct.pack("<I", heat)) for heat in (1, 180_001, 200_001)),
          *((at, b"\1") for at in range(24, LINE)), (6, b"\0\0"), (6, b"\r\0"),
          (8, struct.pack("<I", 100_000_001)), (16, struct.pack("<I", 1_000_001)),
          (20, bytes(4)), (20, struct.pack("<I", 200_001))]


def pure(amount, carbon=1_000_000):
    """Gas of which a cubic metre weighs a kilogram, with 3.664 kg of CO2 if all of it is carbon."""
    return gas_record(amount, carbon, 20_000, fuel=CLEAN)


# By a year's gas: what the report says in kg, and the decision, both worked by hand.
YEARS = [
    ("0.450001488 kg", [pure(1, 122_817)], 0, "no"),
    ("twice 0.450001488 kg", 2 * [pure(1, 122_817)], 1, "no"),
    ("9,999.997648 t", [pure(2_729_257)], 9_999_998, "no"),
    ("10,000.001312 t", [pure(2_729_258)], 10_000_001, "yes"),
    ("2,000 times 3,664,000 t", 2_000 * [gas_record(100_000_000, 1_000_000, 200_000, fuel=CLEAN)],
     7_328_000_000_000, "yes"),
]


def try_edges(programs, cases):
    """Every amount with every carbon and molecular weight, by every sort of molar volume."""
    fuels = (METHANE, LEAST, ODD, BINARY, MOST)
    for unit in (UNMONITORED, LARGE, WET, DRY):
        records = [gas_record(*edge, unit, fuel)
                   for *edge, fuel in itertools.product(AMOUNTS, CARBONS, WEIGHTS, fuels)]
        with cases.case(f"lines, annual and replay: analysed gas at every edge, unit {unit}"):
            expect_by_model(programs, records, LISTED, FUELS)


def try_flags(programs, cases):
    """Every pattern of the flags, and those of heats with heats at the edges."""
    patterns = [*itertools.product(range(16), HEATS)]
    patterns += itertools.product(range(16, 256), (0, 35_050))
    for fuel in (METHANE, OTHER, UNHEATED, UNTOLD, OIL):
        records = [patch(gas_record(unit=unit, fuel=fuel, heat=heat), 1, bytes([flags]))
                   for unit in (UNMONITORED, LARGE, WET) for flags, heat in patterns]
        with cases.case(f"lines, annual and replay: every flag of analysed gas, fuel {fuel}"):
            expect_by_model(programs, records, LISTED, FUELS)


def try_order(programs, cases):
    """Every fault alone and beside every other: of two, one reason is told."""
    with cases.case("every fault of analysed gas is one"):
        expect([judged([patch(gas_record(), *fault)], LISTED, FUELS)[0][:6] for fault in FAULTS],
               ["reason"] * len(FAULTS), "the list")
    pairs = [(), *((fault,) for fault in FAULTS), *itertools.combinations(FAULTS, 2)]
    fuels = (METHANE, OTHER, UNHEATED, UNTOLD, BARE, OIL, UNKNOWN)
    for unit in (UNMONITORED, LARGE, WET, UNLISTED, DRY):
        records = []
        for fuel, faults in itertools.product(fuels, pairs):
            record = gas_record(unit=unit, fuel=fuel)
            for at, new in faults:
                record = patch(record, at, new)
            records.append(record)
        with cases.case(f"lines, annual and replay: two faults of analysed gas, unit {unit}"):
            expect_by_model(programs, records, LISTED, FUELS)


def try_rests(programs, cases):
    """Masses of 0 to 1,999 times 41.22 µg, each rounded by itself, and their sum once more."""
    exact = [fractions.Fraction(amount * 25 * 9 * 3_664, 20_000) for amount in range(2_000)]
    of = book([gas_record(amount, 25, 9, fuel=CLEAN) for amount in range(2_000)], LISTED, FUELS)
    rounded = [round(mass) for mass in exact]
    with cases.case("halves of these have the even number below as often as above"):
        expect([sum(2 * mass % 4 == way for mass in exact) for way in (1, 3)], [20, 20], "the list")
    with cases.case("lines: analysed gas of every rest"):
        expect_told(programs.run("lines", data=of),
                    lines_of(burned(3, mass, 0, 0) for mass in rounded))
    with cases.case("annual: analysed gas of every rest"):
        expect_told(programs.run("annual", data=of), report(of, (1_000 * sum(rounded), 0, 0, 0)))


def try_years(programs, cases):
    for name, records, kilograms, decision in YEARS:
        with cases.case(f"annual: a year's gas of {name}"):
            told = (f"year 2010\nrecords {len(records)}\nfossil-co2-kg {kilograms}\n"
                    f"biomass-co2-kg 0\nch4-kg 0\nn2o-kg 0\nco2e-kg {kilograms}\n"
                    f"must-report {decision}\n")
            of = book(records, LISTED, FUELS)
            expect_told(programs.run("annual", data=of), told.encode())


def try_gas_edges(programs, cases):
    for attempt in (try_edges, try_flags, try_order, try_rests, try_years):
        attempt(programs, cases)
