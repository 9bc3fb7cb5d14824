"""The gases that docs/RULES.md works by hand: each number of the page, reckoned here anew from what
was measured and the molar volume, and what `lines` prints of them."""
import fractions

from program_books import book, fuel_line, gas_record
from program_by_hand import WAYS, Column, columns_below, try_column, way_of
from program_model import burned, lines_of
from program_runs import expect, expect_told

HEADING = "## Analysed gas\n"
MEASURED = (AMOUNT, CARBON, WEIGHT, VOLUME) = (
    "amount, m³", "carbon, mg per kg", "molecular weight, g per kmol",
    "molar volume, litres per kmol")
PART, QUOTIENT, MASS = "the latter divided by the molar volume", "quotient", "CO2 in µg"
NAMES = ["methane", *WAYS[2:]]


def number_in(rows, name):
    return int(rows[name].replace(",", ""))


def reckon(told):
    """What the page must say of a gas. Only methane isn't a half."""
    amount, carbon, weight, volume = (number_in(told, name) for name in MEASURED)
    first, second = amount * carbon, weight * 3_664
    whole, left = divmod(second, volume)
    quotient, remainder = divmod(first * second, volume)
    # Python takes a half of a fraction to the even number.
    numbers = {
        AMOUNT: amount, CARBON: carbon, WEIGHT: weight, VOLUME: volume,
        "A, amount × carbon": first, "B, molecular weight × 3,664": second,
        "B divided by the molar volume": whole, "what is left of B": left,
        "A × the one": first * whole, "A × the other": first * left,
        PART: first * left // volume, "remainder": remainder,
        "half of the molar volume": volume // 2, QUOTIENT: quotient,
        MASS: round(fractions.Fraction(first * second, volume))}
    way = way_of(quotient, remainder, volume // 2)
    return Column(way if way in NAMES else NAMES[0],
                  {name: f"{number:,}" for name, number in numbers.items()})


def try_gas_columns(gases, cases):
    with cases.case("docs/RULES.md: methane by hand, and a gas for each way that a half goes"):
        expect([gas.name for gas in gases], NAMES, "the list of gases")
    with cases.case("docs/RULES.md: the second gas's part is odd, and its quotient even"):
        odd = [number_in(gases[1].rows, name) % 2 for name in (PART, QUOTIENT)]
        expect(odd, [1, 0], "what is left of them by 2")
    for gas in gases:
        try_column(cases, f"the gas by hand, {gas.name}", gas, reckon)


def try_gas_columns_lines(programs, cases):
    """`lines` prints what the page says, of each gas alone and of all in one book."""
    gases = columns_below(HEADING)
    fuels, records, told = [], [], []
    for number, gas in enumerate(gases, 1):
        amount, carbon, weight, volume = (number_in(gas.rows, name) for name in MEASURED)
        fuels.append(fuel_line(number, molar_volume=volume))
        records.append(gas_record(amount, carbon, weight, fuel=number))
        told.append(burned(3, number_in(gas.rows, MASS), 34_200_000 * amount, 3_420_000 * amount))
    for gas, record, words in zip(gases, records, told):
        with cases.case(f"lines: the gas by hand, {gas.name}"):
            expect_told(programs.run("lines", data=book([record], fuels=fuels)), lines_of([words]))
    with cases.case("lines: the gases by hand in one book"):
        expect_told(programs.run("lines", data=book(records, fuels=fuels)), lines_of(told))


def try_gas_page(programs, cases):
    try_gas_columns(columns_below(HEADING), cases)
    try_gas_columns_lines(programs, cases)
