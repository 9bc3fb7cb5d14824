"""Anodes of a smelter: what the programs make of them by themselves, at the ends of every range and
on every sort of unit, and which reason is told of two."""
import itertools
import struct

from program_books import LINE, anodes_record, book, checkpoint, patch, report, unit_line
from program_lines import FUELS
from program_model import DRY, LISTED, UNLISTED, UNMONITORED, WET, anodes_of, expect_answered
from program_model import expect_by_model, judged, lines_of
from program_replay import BLANK, RECORD, WAKE, answer, frame, record_answer
from program_runs import expect, expect_told

LARGE = 2  # past the limit of default heats, which is nothing to anodes
PURE = (0, 0, 0)
MONTHS = range(1, 13)


def one_gram(rest):
    """A gram of anodes for a kilogram of metal, all but so many hundredths of a percent sulphur."""
    return anodes_record(1, 1, (10_000 - rest, 0, 0))


def real(*impurities):
    """1,234,567 × 413 is 509,876,171."""
    return anodes_record(1_234_567, 413, impurities)


# Each with its CO2 in µg: metal × use × (10,000 − impurities) × 366.4, to the nearest. Of 366.4 times
# 1 to 5 every tenth is left over that there is, and no half is among them.
SUMS = [
    ("anodes", anodes_record(), 1_513_488_480_000_000),
    ("the most metal, the most use and no impurity", anodes_record(100_000_000, 1_000, PURE),
     366_400_000_000_000_000),
    ("one less of each", anodes_record(99_999_999, 999, (0, 0, 1)), 365_996_992_980_030_034),
    ("a kilogram and a gram", one_gram(10_000), 3_664_000),
    ("no metal", anodes_record(0), 0),
    ("no use", anodes_record(use=0), 0),
    ("metal in all four bytes", anodes_record(0x01020304, 1, PURE), 61_954_795_840_000),
    ("use in the higher byte", anodes_record(1, 768, PURE), 2_813_952_000),
    ("366.4 µg", one_gram(1), 366),
    ("732.8 µg", one_gram(2), 733),
    ("1,099.2 µg", one_gram(3), 1_099),
    ("1,465.6 µg", one_gram(4), 1_466),
    ("1,832.0 µg", one_gram(5), 1_832),
    ("a large mass that goes down, by 0.4", real(187, 33, 9), 1_825_404_824_490_542),
    ("a large mass that goes up, by 0.2", real(187, 33, 8), 1_825_591_643_119_597),
    ("a large mass that stays", real(187, 33, 5), 1_826_152_099_006_760),
    ("a little sulphur", anodes_record(10, 1, (1, 0, 0)), 36_636_336),
    ("a little ash", anodes_record(10, 1, (0, 1, 0)), 36_636_336),
    ("a little else", anodes_record(10, 1, (0, 0, 1)), 36_636_336),
    ("sulphur in the higher byte", anodes_record(10, 1, (256, 0, 0)), 35_702_016),
    ("nothing but sulphur", anodes_record(impurities=(10_000, 0, 0)), 0),
    ("nothing but ash", anodes_record(impurities=(0, 10_000, 0)), 0),
    ("nothing but else", anodes_record(impurities=(0, 0, 10_000)), 0),
    ("impurities that add up to 100.00 %", anodes_record(impurities=(3_334, 3_333, 3_333)), 0),
    ("the first month", anodes_record(month=1), 1_513_488_480_000_000),
    ("the last month", anodes_record(month=12), 1_513_488_480_000_000),
    ("a large unit", anodes_record(unit=LARGE), 1_513_488_480_000_000),
    ("a unit with a monitor", anodes_record(unit=WET), 1_513_488_480_000_000),
    ("a unit with a monitor of dry gas", anodes_record(unit=DRY), 1_513_488_480_000_000),
]
# By reason.
ASIDE = {
    1: [("flags", patch(anodes_record(), 1, b"\1")),
        ("the highest flag", patch(anodes_record(), 1, b"\x80")),
        ("a fuel number", patch(anodes_record(), 4, b"\1")),
        ("a fuel number in the higher byte", patch(anodes_record(), 5, b"\1")),
        *((f"byte {at}", patch(anodes_record(), at, b"\1")) for at in range(22, LINE)),
        ("a fuel number on an unlisted unit", patch(anodes_record(unit=UNLISTED), 4, b"\1")),
        ("byte 31 beside month 0", patch(anodes_record(month=0), 31, b"\x80"))],
    2: [("an unlisted unit", anodes_record(unit=UNLISTED)),
        ("unit 0", anodes_record(unit=0)),
        ("a listed unit's number in the higher byte", anodes_record(unit=WET << 8)),
        ("month 13 of an unlisted unit", anodes_record(unit=UNLISTED, month=13)),
        ("impurities past all on an unlisted unit",
         anodes_record(unit=UNLISTED, impurities=(10_000, 1, 0)))],
    4: [*((f"month {month}", anodes_record(month=month)) for month in (0, 13, 260, 65_535)),
        *((f"metal of {metal} kg", anodes_record(metal)) for metal in (100_000_001, 2**32 - 1)),
        *((f"use of {use} g", anodes_record(use=use)) for use in (1_001, 65_536, 2**32 - 1)),
        *((f"impurities {impurities}", anodes_record(impurities=impurities)) for impurities in (
            (10_001, 0, 0), (0, 10_001, 0), (0, 0, 10_001), (65_535, 0, 0),
            (10_000, 1, 0), (5_000, 5_000, 1), (3_334, 3_334, 3_333), (10_000, 10_000, 10_000),
            # In 16 bits these add up to 0.
            (65_535, 1, 0), (0, 32_768, 32_768), (65_535, 65_535, 2)))],
}
ROWS = [(name, record, anodes_of(co2)) for name, record, co2 in SUMS]
ROWS += [(name, record, f"reason {reason}") for reason, rows in ASIDE.items()
         for name, record in rows]

METALS = (0, 1, 3, 65_535, 65_536, 99_999_999, 100_000_000, 100_000_001, 2**31, 2**32 - 1)
USES = (0, 1, 7, 999, 1_000, 1_001, 65_536, 2**32 - 1)
IMPURITIES = (PURE, (1, 0, 0), (125, 40, 3), (3_333, 3_333, 3_333), (10_000, 0, 0), (0, 9_999, 1),
              (1, 0, 10_000), (5_000, 5_000, 1), (10_001, 0, 0), (65_535, 1, 0),
              (32_768, 0, 32_768), (65_535, 65_535, 2), (20_000, 20_000, 25_536))
# A place and what is put there: each is a fault by itself. With 125 of sulphur, 9,876 are too much.
FAULTS = [*((at, b"\1") for at in (1, 4, 5, *range(22, LINE))), (6, b"\0\0"), (6, b"\r\0"),
          (8, struct.pack("<I", 100_000_001)), (12, struct.pack("<I", 1_001)),
          (16, struct.pack("<H", 10_001)), (18, struct.pack("<H", 9_876))]

# 64 units of every sort, so that 768 anodes stand in a book and none repeats another.
UNITS = [unit_line(257 * place + 1, monitor=place % 3 > 0, dry=place % 3 == 2)
         for place in range(64)]
SLOTS = [{"unit": 257 * place + 1, "month": month} for place in range(64) for month in MONTHS]

FEW = anodes_record(1_000, 1_000, (9_999, 0, 0))  # 0.3664 kg
# By a year's anodes: what the report says in kg, and the decision, both worked by hand.
YEARS = [
    ("0.3664 kg", [FEW], 0, "no"),
    ("twice 0.3664 kg", [FEW, patch(FEW, 6, b"\5")], 1, "no"),
    ("12 times 0.3664 kg", [patch(FEW, 6, bytes([month])) for month in MONTHS], 4, "no"),
    ("9,999.9998464 t", [anodes_record(27_292_576, 100, PURE)], 10_000_000, "no"),
    ("10,000.0002128 t", [anodes_record(27_292_577, 100, PURE)], 10_000_000, "yes"),
    ("768 times 366,400 t", [anodes_record(100_000_000, 1_000, PURE, **slot) for slot in SLOTS],
     281_395_200_000, "yes"),
]


def try_own_anodes(cases):
    with cases.case("the judge says what is worked by hand of all anodes"):
        for name, record, wanted in ROWS:
            expect(judged([record], LISTED), [wanted], name)
    with cases.case("every fault is one"):
        expect([judged([patch(anodes_record(), *fault)], LISTED)[0][:6] for fault in FAULTS],
               ["reason"] * len(FAULTS), "the list")


def try_anode_lines(programs, cases):
    for name, record, wanted in ROWS:
        with cases.case(f"lines: {name}"):
            of = book([record], LISTED, FUELS)
            expect_told(programs.run("lines", data=of), lines_of([wanted]))


def in_slot(record, unit, month):
    return patch(patch(record, 2, struct.pack("<H", unit)), 6, struct.pack("<H", month))


def try_anode_book(programs, cases):
    """All of them in one book, where each that counts has a unit and month of its own."""
    records = [in_slot(record, **slot) for (_, record, _), slot in zip(SUMS, SLOTS)]
    records += [record for rows in ASIDE.values() for _, record in rows]
    with cases.case("lines: anodes of each sum and each reason in one book"):
        told = programs.run("lines", data=book(records, UNITS, []))
        expect_told(told, lines_of(wanted for *_, wanted in ROWS))


def try_anode_answers(programs, cases):
    """In so many numbers: method 0, the fossil ledger, and 1,513 t with a rest."""
    of = book([anodes_record()], LISTED, FUELS)
    saved = checkpoint(of, 1, (1_513_488_480_000_000_000, 0, 0, 0))
    with cases.case("replay: anodes by themselves, and a wake over them"):
        expect_answered(programs, [
            (frame(RECORD, 0, of), record_answer(ledger=1, masses=(1_513_488_480_000_000, 0, 0))),
            (frame(WAKE, 1, of, checkpoint(of), BLANK), answer(count=1, out=saved))])


def try_kinds(programs, cases):
    """The same bytes under every kind: an hour would have a byte too many, a delivery a heat."""
    records = [patch(anodes_record(), 0, bytes([kind])) for kind in range(256)]
    wanted = 4 * ["reason 1"] + [anodes_of(1_513_488_480_000_000)] + 251 * ["reason 1"]
    with cases.case("lines: the bytes of anodes under every kind"):
        of = book(records, LISTED, FUELS)
        expect_told(programs.run("lines", data=of), lines_of(wanted))


def try_edges(programs, cases):
    """Every metal with every use and all impurities, on every sort of unit."""
    edges = list(itertools.product(METALS, USES, IMPURITIES))
    for start in range(0, len(edges), len(SLOTS)):
        records = [anodes_record(*edge, **slot) for edge, slot in zip(edges[start:], SLOTS)]
        with cases.case(f"lines, annual and replay: anodes at every edge, from {start}"):
            expect_by_model(programs, records, UNITS, [])


def try_order(programs, cases):
    """Every fault alone and beside every other: of two, one reason is told."""
    pairs = [(), *((fault,) for fault in FAULTS), *itertools.combinations(FAULTS, 2)]
    records = []
    for unit, faults in itertools.product((UNMONITORED, LARGE, WET, UNLISTED, DRY), pairs):
        record = anodes_record(unit=unit)
        for at, new in faults:
            record = patch(record, at, new)
        records.append(record)
    with cases.case("lines, annual and replay: every fault of anodes beside every other"):
        expect_by_model(programs, records)


def try_tenths(programs, cases):
    """Masses of 0 to 767 times 366.4 µg, each rounded by itself, and their sum once more."""
    rounded = [(3_664 * rest + 5) // 10 for rest in range(len(SLOTS))]
    records = [anodes_record(1, 1, (10_000 - rest, 0, 0), **slot)
               for rest, slot in enumerate(SLOTS)]
    of = book(records, UNITS, [])
    with cases.case("lines: anodes of every tenth of a µg"):
        expect_told(programs.run("lines", data=of), lines_of(map(anodes_of, rounded)))
    with cases.case("annual: anodes of every tenth of a µg"):
        expect_told(programs.run("annual", data=of), report(of, (1_000 * sum(rounded), 0, 0, 0)))


def try_years(programs, cases):
    for name, records, kilograms, decision in YEARS:
        with cases.case(f"annual: a year's anodes of {name}"):
            told = (f"year 2010\nrecords {len(records)}\nfossil-co2-kg {kilograms}\n"
                    f"biomass-co2-kg 0\nch4-kg 0\nn2o-kg 0\nco2e-kg {kilograms}\n"
                    f"must-report {decision}\n")
            expect_told(programs.run("annual", data=book(records, UNITS, [])), told.encode())


def try_anodes(programs, cases):
    try_own_anodes(cases)
    for attempt in (try_anode_lines, try_anode_book, try_anode_answers, try_kinds, try_edges,
                    try_order, try_tenths, try_years):
        attempt(programs, cases)
