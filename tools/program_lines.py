"""What `lines` prints of each record, held against the requirements' sums."""
import struct

from program_annual import BOOKS, ONE, try_failures, try_usage
from program_books import anodes_record, book, fuel_line, fuel_record, gas_record, hour_record
from program_books import masses_of, pad, patch, report, trailer, unit_line
from program_runs import PLANT, ROOT, expect, expect_told

# Unit 1 is at the limit of default heats, 2 is past it, 3 has a monitor, and 5 one of dry gas.
UNITS = [unit_line(1), unit_line(2, 2501), unit_line(3, 2501, monitor=True),
         unit_line(5, 2501, monitor=True, dry=True)]
# Fuel 1 is the requirements' gas with a molar volume, 2 one of class 0 without, 3 wood, 4 has no
# default heat, 6 is oil.
FUELS = [fuel_line(1, molar_volume=24_060), fuel_line(2, fuel_class=0),
         fuel_line(3, 1, 3, 17500, 95000, 30000, 4000), fuel_line(4, heat=0), fuel_line(6, 2, 2)]

# Each record with what stands behind its index. Masses: amount × heat × factor, amount × carbon ×
# 3,664, amount × carbon × molecular weight × 3,664 / molar volume, 518 × R, and metal × use ×
# (10,000 − impurities) × 366.4.
FORMS = [
    ("P1", fuel_record(),
     "method 1 fossil co2-ug 1900000000000 ch4-ng 34200000000 n2o-ng 3420000000"),
    ("P2", fuel_record(heat=39000),
     "method 2 fossil co2-ug 1950000000000 ch4-ng 35100000000 n2o-ng 3510000000"),
    ("P3", fuel_record(carbon=520000),
     "method 3 fossil co2-ug 1905280000000 ch4-ng 34200000000 n2o-ng 3420000000"),
    ("carbon and heat measured", fuel_record(heat=39000, carbon=520000),
     "method 3 fossil co2-ug 1905280000000 ch4-ng 35100000000 n2o-ng 3510000000"),
    ("P4", fuel_record(unit=2), "reason 6"),
    ("P5", fuel_record(unit=2, heat=39000),
     "method 2 fossil co2-ug 1950000000000 ch4-ng 35100000000 n2o-ng 3510000000"),
    ("P6", fuel_record(unit=2, fuel=2, heat=39000), "reason 6"),
    ("P7", hour_record(12.5, 2_000_000, unit=3),
     "hour fossil co2-ug 12950000000000 ch4-ng 0 n2o-ng 0"),
    ("P8", hour_record(0.25, 0.25, unit=3), "hour fossil co2-ug 32116 ch4-ng 0 n2o-ng 0"),
    ("P9", hour_record(0.75, 0.25, unit=3), "hour fossil co2-ug 97384 ch4-ng 0 n2o-ng 0"),
    ("a monitored unit's fuel", fuel_record(unit=3),
     "method 4 none co2-ug 0 ch4-ng 34200000000 n2o-ng 3420000000"),
    ("wood", fuel_record(fuel=3),
     "method 1 biomass co2-ug 1662500000000 ch4-ng 525000000000 n2o-ng 70000000000"),
    ("an amount of 0", fuel_record(0), "method 1 fossil co2-ug 0 ch4-ng 0 n2o-ng 0"),
    ("analysed gas", gas_record(),
     "method 3 fossil co2-ug 1828580266667 ch4-ng 34200000000 n2o-ng 3420000000"),
    ("a monitored unit's analysed gas", gas_record(unit=3),
     "method 4 none co2-ug 0 ch4-ng 34200000000 n2o-ng 3420000000"),
    ("anodes", anodes_record(), "anodes fossil co2-ug 1513488480000000 ch4-ng 0 n2o-ng 0"),
    ("zeros", pad(b""), "reason 1"),
    ("an unlisted unit", fuel_record(unit=4), "reason 2"),
    ("an unlisted fuel", fuel_record(fuel=5), "reason 3"),
    ("month 13", fuel_record(month=13), "reason 4"),
    ("percent just above 100", hour_record(struct.unpack("<f", b"\1\0\xc8\x42")[0], 1.0, unit=3),
     "reason 4"),
    ("percent NaN", patch(hour_record(0, 1.0, unit=3), 8, b"\0\0\xc0\x7f"), "reason 4"),
    ("analysed gas without a molar volume", gas_record(fuel=2), "reason 4"),
    ("an hour of a unit without monitor", hour_record(12.5, 1.0), "reason 5"),
    ("carbon measured, no heat anywhere", fuel_record(fuel=4, carbon=520000), "reason 7"),
]


def try_forms(programs, cases, forms):
    """Each of these records alone, and all in one book."""
    for name, record, wanted in forms:
        with cases.case(f"lines: {name}"):
            of = book([record], UNITS, FUELS)
            expect_told(programs.run("lines", data=of), f"record 0 {wanted}\n".encode())
    try_together(programs, cases, forms)


def book_of(forms, warming_set=0):
    """All of these records in one book, where each record of hour 1 gets a number of its own: a
    second one of an hour would be set aside for that."""
    records = [patch(record, 6, struct.pack("<H", place))
               if record[0] == 2 and record[6:8] == b"\1\0" else record
               for place, (_, record, _) in enumerate(forms, 1)]
    return book(records, UNITS, FUELS, warming_set=warming_set)


def try_together(programs, cases, forms):
    with cases.case(f"lines: {forms[0][0]} to {forms[-1][0]} in one book"):
        of = book_of(forms)
        lines = [f"record {i} {wanted}\n" for i, (_, _, wanted) in enumerate(forms)]
        expect_told(programs.run("lines", data=of), "".join(lines).encode())


def try_plant(programs, cases):
    """The exact masses, added up by ledger and rounded once, are the report that was reckoned."""
    plant, told = PLANT.read_bytes(), (ROOT / "examples/plant.report").read_bytes()
    with cases.case("lines: the masses of examples/plant.book add up to its report"):
        answer = programs.run("lines", data=plant)
        expect(answer.out.count(b"\n"), 282, "the number of lines")
        ledgers = [sum(column) for column in zip(*masses_of(answer.out))]
        expect(report(plant, ledgers), told, "the report")
        expect_told(answer, answer.out)


def try_lines(programs, cases):
    with cases.case("lines: the book of 128 bytes"):
        expect_told(programs.run("lines", data=ONE), f"record 0 {FORMS[0][2]}\n".encode())
    with cases.case("lines: a book with no records has none"):
        expect_told(programs.run("lines", data=trailer(0, 0)), b"")
    try_forms(programs, cases, FORMS)
    try_plant(programs, cases)
    try_usage(programs, cases, "lines", b"BOOK")
    try_failures(programs, cases, "lines", BOOKS)
