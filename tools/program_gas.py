"""Analysed gas, whose carbon and molecular weight a laboratory tells: what the programs make of it
in sums that are worked by hand, and which reason each fault of it has."""
import fractions
import struct

from program_books import LINE, book, checkpoint, fuel_line, gas_record, patch
from program_model import DRY, LISTED, UNLISTED, WET, burned, expect_answered, expect_by_model
from program_model import judged, lines_of
from program_replay import BLANK, RECORD, WAKE, answer, frame, record_answer
from program_runs import expect, expect_told

LARGE = 2  # past the limit of default heats, which is nothing to carbon that is told
# Fuels by what is special about them. No line has the number 5.
(METHANE, OTHER, LEAST, UNHEATED, UNKNOWN, ODD, BINARY, MOST, UNTOLD, BARE, OIL, WOOD, COKE,
 NITROUS, CLEAN) = range(1, 16)
FUELS = [
    fuel_line(METHANE, molar_volume=24_060),
    fuel_line(OTHER, fuel_class=0, molar_volume=23_670),
    fuel_line(LEAST, molar_volume=20_000),
    fuel_line(UNHEATED, heat=0, molar_volume=20_000),
    fuel_line(ODD, molar_volume=20_001),
    fuel_line(BINARY, fuel_class=0, molar_volume=24_576),  # 3 × 2^13
    fuel_line(MOST, molar_volume=27_000),
    fuel_line(UNTOLD),
    fuel_line(BARE, heat=0),
    fuel_line(OIL, 2, 2, molar_volume=24_060),
    fuel_line(WOOD, 1, 3, 17_500, 95_000, 30_000, 4_000, molar_volume=24_060),
    fuel_line(COKE, 1, 0),
    fuel_line(NITROUS, ch4=0, n2o=200_000, molar_volume=24_060),
    fuel_line(CLEAN, ch4=0, n2o=0, molar_volume=20_000),
]

# Amount, carbon, molecular weight, fuel, and the CO2 in µg: amount × carbon × weight × 3,664 over
# the molar volume, to the nearest and a half to the even number. 3,664 is 16 × 229, so that with
# 20,000 litres 625 gives 114.5 µg, and with 24,576 litres 768 does: odd multiples of these are
# halves.
SUMS = [
    ("methane", 1_000, 748_600, 16_040, METHANE, 1_828_580_266_667),  # .67
    ("methane at 60 °F", 1_000, 748_600, 16_040, OTHER, 1_858_708_965_610),  # .48
    ("methane with the least molar volume", 1_000, 748_600, 16_040, LEAST, 2_199_782_060_800),
    ("methane with an odd molar volume", 1_000, 748_600, 16_040, ODD, 2_199_672_077_196),  # .14
    ("methane with 24,576 litres", 1_000, 748_600, 16_040, BINARY, 1_790_187_223_958),  # .33
    ("methane with 27,000 litres", 1_000, 748_600, 16_040, MOST, 1_629_468_193_185),  # .19
    ("114.5 µg of 20,000 litres, even below", 1, 625, 1, LEAST, 114),
    ("343.5 µg of 20,000 litres, even above", 3, 625, 1, LEAST, 344),
    ("114.5 µg of 24,576 litres, even below", 1, 768, 1, BINARY, 114),
    ("343.5 µg of 24,576 litres, even above", 3, 768, 1, BINARY, 344),
    # 9 × 3,664 is once 20,000 and 12,976, of which 625 gives 405.5 and 1,875 gives 1,216.5: by itself
    # each of these parts would go the other way.
    ("1,030.5 µg, even below, odd in the part", 25, 25, 9, LEAST, 1_030),
    ("3,091.5 µg, even above, even in the part", 75, 25, 9, LEAST, 3_092),
    # Products past 64 bits. 159,999 × 625, and 130,207 × 768.
    ("a large half of 20,000 litres, even below", 99_999_375, 999_999, 199_997, LEAST,
     3_663_918_476_421_359_656),
    ("a large half of 20,000 litres, even above", 99_999_375, 999_999, 199_999, LEAST,
     3_663_955_116_155_719_886),
    ("a large half of 24,576 litres, even below", 99_998_976, 999_999, 199_997, BINARY,
     2_981_692_592_199_926_104),
    ("a large half of 24,576 litres, even above", 99_998_976, 999_999, 199_999, BINARY,
     2_981_722_409_573_108_702),
    # 1,328 × 20,001 and 10,000; 2,335 × 20,001 and 10,001.
    ("the most below a half of an odd molar volume", 1, 7_252, 1, ODD, 1_328),
    ("the least above a half of an odd molar volume", 1, 12_749, 1, ODD, 2_336),
    ("the largest product", 100_000_000, 1_000_000, 200_000, LEAST, 3_664_000_000_000_000_000),
    ("the largest product of an odd molar volume", 100_000_000, 1_000_000, 200_000, ODD,
     3_663_816_809_159_542_023),  # .90
    ("the largest product of the most molar volume", 100_000_000, 1_000_000, 200_000, MOST,
     2_714_074_074_074_074_074),  # .07
    ("one less of each", 99_999_999, 999_999, 199_999, ODD, 3_663_794_789_639_057_887),  # .92
    ("0.14 µg", 1, 1, 1, MOST, 0),
    ("0.37 µg", 1, 1, 1, LEAST, 0),
    ("0.54 µg", 4, 1, 1, MOST, 1),
    ("0.55 µg", 3, 1, 1, LEAST, 1),
    ("an amount in all four bytes", 0x01020304, 1, 1, LEAST, 3_097_740),  # 3,097,739.79
    ("carbon in the third byte", 1, 65_536, 1, METHANE, 9_980),  # .21
    ("carbon in two bytes of three", 1, 983_040, 1, METHANE, 149_703),  # .18
    ("a molecular weight in the third byte", 1, 1, 65_536, METHANE, 9_980),
    ("a molecular weight of three times that", 1, 1, 196_608, METHANE, 29_941),  # 29,940.64
    ("no gas", 0, 748_600, 16_040, METHANE, 0),
    ("no carbon", 1_000, 0, 16_040, METHANE, 0),
]
METHANE_MASS = 1_828_580_266_667
# With what stands behind the index. Of a low value of 35,050 kJ the heat in use is 38,906.
OTHERS = [
    ("heat measured", gas_record(heat=39_000),
     burned(3, METHANE_MASS, 35_100_000_000, 3_510_000_000)),
    ("the least heat", gas_record(heat=1), burned(3, METHANE_MASS, 900_000, 90_000)),
    ("the most heat", gas_record(heat=200_000),
     burned(3, METHANE_MASS, 180_000_000_000, 18_000_000_000)),
    ("another gas's heat", gas_record(fuel=OTHER, heat=39_000),
     burned(3, 1_858_708_965_610, 35_100_000_000, 3_510_000_000)),
    ("a low value", gas_record(low_heat=35_000),
     burned(3, METHANE_MASS, 34_965_000_000, 3_496_500_000)),
    ("a low value whose half goes up", gas_record(low_heat=35_050),
     burned(3, METHANE_MASS, 35_015_400_000, 3_501_540_000)),
    ("the least low value", gas_record(low_heat=1), burned(3, METHANE_MASS, 900_000, 90_000)),
    ("the most low value", gas_record(low_heat=180_000),
     burned(3, METHANE_MASS, 179_820_000_000, 17_982_000_000)),
    ("heat measured, no default", gas_record(fuel=UNHEATED, heat=39_000),
     burned(3, 2_199_782_060_800, 35_100_000_000, 3_510_000_000)),
    ("a low value, no default", gas_record(fuel=UNHEATED, low_heat=35_000),
     burned(3, 2_199_782_060_800, 34_965_000_000, 3_496_500_000)),
    ("a large unit", gas_record(unit=LARGE), burned(3, METHANE_MASS)),
    ("a large unit's other gas", gas_record(unit=LARGE, fuel=OTHER), burned(3, 1_858_708_965_610)),
    ("a large unit's other gas, heat measured", gas_record(unit=LARGE, fuel=OTHER, heat=39_000),
     burned(3, 1_858_708_965_610, 35_100_000_000, 3_510_000_000)),
    ("a unit with a monitor", gas_record(unit=WET), burned(4, 0)),
    ("a unit with a monitor of dry gas", gas_record(unit=DRY), burned(4, 0)),
    ("a monitor and a low value", gas_record(unit=WET, low_heat=35_050),
     burned(4, 0, 35_015_400_000, 3_501_540_000)),
    ("a monitor and the largest product",
     gas_record(100_000_000, 1_000_000, 200_000, WET, LEAST),
     burned(4, 0, 3_420_000_000_000_000, 342_000_000_000_000)),
    ("no CH4 and the most N2O", gas_record(fuel=NITROUS),
     burned(3, METHANE_MASS, 0, 7_600_000_000_000)),
    ("the first month", gas_record(month=1), burned(3, METHANE_MASS)),
    ("the last month", gas_record(month=12), burned(3, METHANE_MASS)),
]


def patched(at, new, **more):
    return patch(gas_record(**more), at, new)


# By reason.
ASIDE = {
    1: [*((f"flags {flags}", patched(1, bytes([flags]))) for flags in (2, 4, 6, 8, 16, 128)),
        ("the flag of carbon beside a heat", patched(1, b"\3", heat=39_000)),
        ("the flag of carbon beside a low value", patched(1, b"\7", low_heat=35_000)),
        *((f"a heat in byte {at} that isn't flagged", patched(at, b"\1")) for at in range(12, 16)),
        ("a low value that isn't flagged as measured", patched(1, b"\4", low_heat=35_000)),
        *((f"byte {at}", patched(at, b"\1")) for at in range(24, LINE)),
        ("the flag of carbon on an unlisted unit", patched(1, b"\2", unit=UNLISTED)),
        ("byte 24 of an unlisted fuel", patched(24, b"\1", fuel=UNKNOWN)),
        ("byte 31 beside month 0", patched(31, b"\x80", month=0))],
    2: [("an unlisted unit", gas_record(unit=UNLISTED)),
        ("unit 0", gas_record(unit=0)),
        ("a listed unit's number in the higher byte", gas_record(unit=WET << 8)),
        ("an unlisted unit's unlisted fuel", gas_record(unit=UNLISTED, fuel=UNKNOWN)),
        ("an unlisted unit's oil", gas_record(unit=UNLISTED, fuel=OIL)),
        ("an unlisted unit's month 13", gas_record(unit=UNLISTED, month=13))],
    3: [("an unlisted fuel", gas_record(fuel=UNKNOWN)),
        ("fuel 0", gas_record(fuel=0)),
        ("a listed fuel's number in the higher byte", gas_record(fuel=METHANE << 8)),
        ("an unlisted fuel's month 13", gas_record(fuel=UNKNOWN, month=13)),
        ("an unlisted fuel's molecular weight of 0", gas_record(weight=0, fuel=UNKNOWN)),
        ("an unlisted fuel's low value", gas_record(fuel=UNKNOWN, low_heat=35_000)),
        ("an unlisted fuel with a monitor", gas_record(unit=WET, fuel=UNKNOWN))],
    4: [*((f"month {month}", gas_record(month=month)) for month in (0, 13, 262, 65_535)),
        *((f"{amount} m³", gas_record(amount)) for amount in (100_000_001, 2**32 - 1)),
        *((f"heat {heat}", gas_record(heat=heat)) for heat in (0, 200_001, 2**32 - 1)),
        *((f"low value {heat}", gas_record(low_heat=heat)) for heat in (0, 180_001, 200_000)),
        ("a low value of another gas", gas_record(fuel=OTHER, low_heat=35_000)),
        *((f"carbon {carbon}", gas_record(carbon=carbon))
          for carbon in (1_000_001, 4_000_000, 2**32 - 1)),
        *((f"molecular weight {weight}", gas_record(weight=weight))
          for weight in (0, 200_001, 2**32 - 1)),
        *((f"a molar volume of a fuel that isn't a gas, {fuel}", gas_record(fuel=fuel))
          for fuel in (OIL, WOOD)),
        ("a solid without one", gas_record(fuel=COKE)),
        ("a gas without a molar volume", gas_record(fuel=UNTOLD)),
        ("a gas without a molar volume and no carbon", gas_record(carbon=0, fuel=UNTOLD)),
        ("a gas without molar volume and heat", gas_record(fuel=BARE)),
        *((f"fuel {fuel} and a monitor", gas_record(unit=WET, fuel=fuel))
          for fuel in (UNTOLD, BARE, OIL)),
        ("molecular weight 0 and a monitor", gas_record(weight=0, unit=WET)),
        ("carbon past all and a monitor", gas_record(carbon=1_000_001, unit=WET)),
        ("month 13 and no heat", gas_record(fuel=UNHEATED, month=13))],
    7: [("no heat", gas_record(fuel=UNHEATED)),
        ("no heat and no gas", gas_record(0, fuel=UNHEATED)),
        ("no heat in a large unit", gas_record(unit=LARGE, fuel=UNHEATED)),
        ("no heat and a monitor", gas_record(unit=WET, fuel=UNHEATED))],
}
ROWS = [(name, gas_record(amount, carbon, weight, fuel=fuel),
         burned(3, co2, 34_200_000 * amount, 3_420_000 * amount))
        for name, amount, carbon, weight, fuel, co2 in SUMS]
ROWS += OTHERS
ROWS += [(name, record, f"reason {reason}") for reason, rows in ASIDE.items()
         for name, record in rows]


def try_own_gas(cases):
    with cases.case("the judge says what is worked by hand of all analysed gas"):
        for name, record, wanted in ROWS:
            expect(judged([record], LISTED, FUELS), [wanted], name)
    with cases.case("analysed gas of each sum is the nearest mass, and a half the even one"):
        for name, amount, carbon, weight, fuel, co2 in SUMS:
            exact = fractions.Fraction(amount * carbon * weight * 3_664, volume_of(fuel))
            expect(round(exact), co2, name)


def volume_of(fuel):
    line = next(line for line in FUELS if struct.unpack_from("<H", line) == (fuel,))
    return struct.unpack_from("<I", line, 20)[0]


def try_gas_lines(programs, cases):
    for name, record, wanted in ROWS:
        with cases.case(f"lines: analysed gas, {name}"):
            of = book([record], LISTED, FUELS)
            expect_told(programs.run("lines", data=of), lines_of([wanted]))


def try_gas_book(programs, cases):
    with cases.case("lines: analysed gas of each sum and each reason in one book"):
        of = book([record for _, record, _ in ROWS], LISTED, FUELS)
        expect_told(programs.run("lines", data=of), lines_of(wanted for *_, wanted in ROWS))


def try_gas_jobs(programs, cases):
    with cases.case("lines, annual and replay: analysed gas of each sum and each reason"):
        expect_by_model(programs, [record for _, record, _ in ROWS], LISTED, FUELS)
    with cases.case("lines, annual and replay: analysed gas that counts, with the same twice"):
        counted = [record for _, record, wanted in ROWS if wanted[:6] == "method"]
        expect_by_model(programs, counted[:12] + counted[:12], LISTED, FUELS)


def try_gas_answers(programs, cases):
    """In so many numbers: method 3, the fossil ledger, and 1 t with a rest."""
    of = book([gas_record()], LISTED, FUELS)
    saved = checkpoint(of, 1, (1_828_580_266_667_000, 0, 34_200_000_000, 3_420_000_000))
    with cases.case("replay: analysed gas by itself, and a wake over it"):
        expect_answered(programs, [
            (frame(RECORD, 0, of), record_answer(
                method=3, ledger=1, masses=(METHANE_MASS, 34_200_000_000, 3_420_000_000))),
            (frame(WAKE, 1, of, checkpoint(of), BLANK), answer(count=1, out=saved))])


def try_kinds(programs, cases):
    """The same bytes under every kind: a delivery would have carbon that isn't flagged, an hour and
    anodes a fuel."""
    records = [patch(gas_record(), 0, bytes([kind])) for kind in range(256)]
    wanted = 3 * ["reason 1"] + [burned(3, METHANE_MASS)] + 252 * ["reason 1"]
    with cases.case("lines: the bytes of analysed gas under every kind"):
        of = book(records, LISTED, FUELS)
        expect_told(programs.run("lines", data=of), lines_of(wanted))


def try_gas(programs, cases):
    try_own_gas(cases)
    for attempt in (try_gas_lines, try_gas_book, try_gas_jobs, try_gas_answers, try_kinds):
        attempt(programs, cases)
