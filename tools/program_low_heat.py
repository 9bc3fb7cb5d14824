"""Natural gas by its low heat value: what `lines` prints of such records, and how they are set aside."""
import collections
import fractions
import itertools
import math
import struct

from program_books import book, fuel_record, masses_of, patch, report
from program_lines import FUELS, UNITS, try_forms
from program_runs import expect, expect_told

# 1,000 m3 each, with what stands behind the index. 1.11 times 35,000 is 38,850; times 35,050 it is
# 38,905.5, and the half goes up; times 35,049 it is 38,904.39.
LOW_HEATS = [
    ("a low value", fuel_record(low_heat=35_000),
     "method 2 fossil co2-ug 1942500000000 ch4-ng 34965000000 n2o-ng 3496500000"),
    ("a low value whose half goes up", fuel_record(low_heat=35_050),
     "method 2 fossil co2-ug 1945300000000 ch4-ng 35015400000 n2o-ng 3501540000"),
    ("a low value that goes down", fuel_record(low_heat=35_049),
     "method 2 fossil co2-ug 1945200000000 ch4-ng 35013600000 n2o-ng 3501360000"),
    ("the least low value", fuel_record(low_heat=1),
     "method 2 fossil co2-ug 50000000 ch4-ng 900000 n2o-ng 90000"),
    ("the most low value", fuel_record(low_heat=180_000),
     "method 2 fossil co2-ug 9990000000000 ch4-ng 179820000000 n2o-ng 17982000000"),
    ("a low value, carbon measured", fuel_record(low_heat=35_000, carbon=520_000),
     "method 3 fossil co2-ug 1905280000000 ch4-ng 34965000000 n2o-ng 3496500000"),
    ("a low value at rating 250.1", fuel_record(unit=2, low_heat=35_000),
     "method 2 fossil co2-ug 1942500000000 ch4-ng 34965000000 n2o-ng 3496500000"),
    ("a low value in a monitored unit", fuel_record(unit=3, low_heat=35_000),
     "method 4 none co2-ug 0 ch4-ng 34965000000 n2o-ng 3496500000"),
    ("a low value without a default heat", fuel_record(fuel=4, low_heat=35_000),
     "method 2 fossil co2-ug 1942500000000 ch4-ng 34965000000 n2o-ng 3496500000"),
    ("a low value of 0", fuel_record(low_heat=0), "reason 4"),
    ("a low value of 180,001", fuel_record(low_heat=180_001), "reason 4"),
    ("a low value of 200,000", fuel_record(low_heat=200_000), "reason 4"),
    ("a low value of another gas", fuel_record(fuel=2, low_heat=35_000), "reason 4"),
    ("a low value of another gas at rating 250.1", fuel_record(unit=2, fuel=2, low_heat=35_000),
     "reason 4"),
    ("a low value of wood", fuel_record(fuel=3, low_heat=35_000), "reason 4"),
    ("a low value of oil", fuel_record(fuel=6, low_heat=35_000), "reason 4"),
    ("a low value of an unlisted fuel", fuel_record(fuel=5, low_heat=35_000), "reason 3"),
    ("a low value that isn't flagged as measured", patch(fuel_record(), 1, b"\4"), "reason 1"),
    ("the same of an unlisted unit", patch(fuel_record(unit=4), 1, b"\4"), "reason 1"),
]
HEATS = (0, 1, 49, 50, 149, 150, 35_049, 35_050, 179_950, 180_000, 180_001, 200_000, 200_001)
LARGE, MONITORED = 2, 3  # the units of UNITS past 250.0, and with a monitor

Fuel = collections.namedtuple("Fuel", "number kind fuel_class heat co2 ch4 n2o")
FUEL = {fuel.number: fuel
        for fuel in (Fuel(*struct.unpack_from("<HBBIIII", line)) for line in FUELS)}


def high(low):
    """1.11 times a low value, to the nearest whole number and a half upward."""
    return math.floor(fractions.Fraction(111, 100) * low + fractions.Fraction(1, 2))


def reason_of(unit, fuel, flags, heat):
    measured, low = flags % 2 == 1, flags & 4 != 0
    if flags > 7 or (not measured and (low or heat != 0)):
        return 1
    if measured and not 1 <= heat <= (180_000 if low else 200_000):
        return 4
    if low and FUEL[fuel].fuel_class != 1:
        return 4
    if method_of(unit, fuel, flags) == 0:
        return 6
    return 7 if not measured and FUEL[fuel].heat == 0 else 0


def method_of(unit, fuel, flags):
    if unit == MONITORED:
        return 4
    if flags & 2:
        return 3
    if flags & 1:
        return 2 if unit != LARGE or FUEL[fuel].fuel_class in (1, 2) else 0
    return 1 if unit != LARGE and FUEL[fuel].heat else 0


def wanted_of(unit, fuel, flags, heat, carbon):
    """What stands behind the index of this record of 1,000 units of fuel."""
    reason = reason_of(unit, fuel, flags, heat)
    if reason:
        return f"reason {reason}"
    method = method_of(unit, fuel, flags)
    of = FUEL[fuel]
    in_use = (high(heat) if flags & 4 else heat) if flags & 1 else of.heat
    co2, ch4, n2o = (1_000 * in_use * factor for factor in (of.co2, of.ch4, of.n2o))
    co2 = {3: 1_000 * carbon * 3_664, 4: 0}.get(method, co2)
    ledger = "none" if method == 4 else "biomass" if of.fuel_class == 3 else "fossil"
    return f"method {method} {ledger} co2-ug {co2} ch4-ng {ch4} n2o-ng {n2o}"


def try_patterns(programs, cases):
    """Every pattern of the flags, on each unit, of each fuel, with heats at the edges."""
    for flags in range(16):
        carbon = 520_000 if flags & 2 else 0
        drawn = list(itertools.product((1, 2, 3), FUEL, HEATS))
        records = [patch(fuel_record(unit=unit, fuel=fuel, heat=heat, carbon=carbon), 1,
                         bytes([flags])) for unit, fuel, heat in drawn]
        lines = [f"record {i} {wanted_of(unit, fuel, flags, heat, carbon)}\n"
                 for i, (unit, fuel, heat) in enumerate(drawn)]
        with cases.case(f"lines: flags {flags} on every unit, of every fuel, at every edge"):
            of = book(records, UNITS, FUELS)
            expect_told(programs.run("lines", data=of), "".join(lines).encode())


def try_low_report(programs, cases):
    """The heat is rounded for each record, and the sum once more in the report alone."""
    with cases.case("annual: every low value from 35,000 to 35,199, in one book"):
        of = book([fuel_record(low_heat=low) for low in range(35_000, 35_200)], UNITS, FUELS)
        heat = sum(map(high, range(35_000, 35_200)))
        ledgers = (10**6 * heat * 50_000, 0, 1_000 * heat * 900, 1_000 * heat * 90)
        told = programs.run("lines", data=of).out
        expect(tuple(map(sum, zip(*masses_of(told)))), ledgers, "the sums of what `lines` prints")
        expect_told(programs.run("annual", data=of), report(of, ledgers))


def try_low_lines(programs, cases):
    try_forms(programs, cases, LOW_HEATS)


def try_low_heat(programs, cases):
    try_low_lines(programs, cases)
    try_patterns(programs, cases)
    try_low_report(programs, cases)
