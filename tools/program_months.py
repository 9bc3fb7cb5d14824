"""Months of anodes that stand in the book already: what the programs make of a unit and month that an
earlier record of anodes has, and of hours that have the same numbers."""
from program_anodes import MONTHS, SLOTS, UNITS
from program_books import LINE, MOST_ANNUAL, anodes_record, patch, unit_line
from program_model import AS_HOUR, DELIVERY, DRY, FAR, IN_MONTH_7, UNLISTED, UNMONITORED, WET
from program_model import expect_by_model
from program_repeats import Once, sent, stray, try_once, try_stream


def made(month=7, unit=WET, **more):
    return anodes_record(unit=unit, month=month, **more)


def few(month=7):
    """Anodes that give 366 µg."""
    return made(month, metal=1, use=1, impurities=(9_999, 0, 0))


def over(month=7):
    """Anodes whose use is past its range."""
    return made(month, use=1_001)


def impure(month=7):
    """Anodes with more impurities than there is of them."""
    return made(month, impurities=(5_000, 5_000, 1))


def spoiled(at=22, month=7, unit=WET):
    """Anodes with a byte that must be 0."""
    return patch(made(month, unit), at, b"\1")


# Each with the reasons of its records, worked by hand; 0 is that of a record that counts.
TWICE = [
    ("a month twice", [made(), made()], "08"),
    ("a month again with other values", [made(), few()], "08"),
    ("three of a month", [made(), few(), made()], "088"),
    ("every month twice", 2 * [made(month) for month in MONTHS], 12 * "0" + 12 * "8"),
    ("two months in turn", [made(7), made(8), made(7), made(8)], "0088"),
    ("two months, one within the other", [made(7), made(8), made(8), made(7)], "0088"),
    ("a delivery between", [made(), DELIVERY, made()], "008"),
    ("a use past its range first", [over(), made(), made()], "488"),
    ("impurities past all first", [impure(), made()], "48"),
    ("a use past its range twice", [over(), over(), made()], "448"),
    ("a repeat whose form is wrong", [made(), spoiled(), made()], "018"),
    ("a repeat with a fuel number", [made(), spoiled(4), made()], "018"),
    ("a repeat whose use is past its range", [made(), over(), made()], "048"),
    ("a repeat with impurities past all", [made(), impure(), made()], "048"),
    ("an unlisted unit", [made(unit=UNLISTED), made(unit=UNLISTED), made()], "220"),
    ("a fuel number on an unlisted unit", [made(unit=UNLISTED), spoiled(4, unit=UNLISTED)], "21"),
    ("a unit without a monitor", [made(unit=UNMONITORED), made(unit=UNMONITORED)], "08"),
    ("a unit of dry gas", [made(unit=DRY), made(unit=DRY)], "08"),
    ("a delivery with the numbers of the anodes", [AS_HOUR, made(), AS_HOUR, made()], "3038"),
    ("a delivery in the same month", [IN_MONTH_7, made(), made()], "008"),
    ("kinds beside that of anodes",
     [patch(made(), 0, bytes([kind])) for kind in (0, 1, 2, 3, 5, 132, 255)] + [made(), made()],
     "111111108"),
    ("an hour of the same numbers first", [sent(), made(), made(), sent()], "0088"),
    ("anodes, then an hour of the same numbers", [made(), sent(), sent(), made()], "0088"),
    ("a wrong hour of the same numbers", [stray(), made(), stray(), made()], "1018"),
    ("wrong anodes, then an hour of the same numbers", [over(), sent(), over(), sent()], "4048"),
    ("hours of all the numbers of months", [make(number) for make in (sent, made, sent, made)
                                            for number in MONTHS], 24 * "0" + 24 * "8"),
    ("the same month of other units",
     [made(), made(unit=DRY), made(unit=FAR), made(unit=UNMONITORED)], "0000"),
    ("every month of a unit", [made(month) for month in MONTHS], 12 * "0"),
    ("unit and month that change places", [made(DRY, WET), made(WET, DRY)], "00"),
    ("months past the range", [made(month) for month in (0, 13, 65_535, 0, 13, 65_535)], "444444"),
    # 263 has the lower byte of 7.
    ("months past the range, and others", [made(month) for month in (0, 13, 263, 1, 7, 12)],
     "444000"),
    *((f"byte {at} of the first has to be 0", [spoiled(at), made(), made()], "188")
      for at in (1, 4, 5, 22, 31)),
]
# One of each sort. Under every budget below 25 that is tried, some wake begins with a repeat.
MIXED = [made(1), made(1), few(2), made(2), sent(1), sent(1), over(3), made(3), spoiled(month=4),
         made(4), DELIVERY, made(1), made(5, DRY), made(5), impure(5), made(1, UNLISTED),
         made(1, UNLISTED), AS_HOUR, made(7), sent(7), made(7), made(8, UNMONITORED),
         made(8, UNMONITORED), sent(12), made(12)]
ANODES = Once("anodes", TWICE, MIXED, "0808084818080042230080800", made, few,
              (1_513_488_480_000_000_000, 0, 0, 0))


def try_month_book(programs, cases):
    try_stream(programs, cases, ANODES)


def try_all_units(programs, cases):
    """Every month on 64 units, then all of them again, and before them those of a unit that isn't
    listed, and so has no place among the others."""
    year = [anodes_record(**slot) for slot in SLOTS]
    strange = [anodes_record(unit=UNLISTED, month=month) for month in MONTHS]
    with cases.case("lines, annual and replay: anodes of 64 units, every month twice"):
        expect_by_model(programs, [*strange, *year, *reversed(year)], UNITS, [])


def try_full_books(programs, cases):
    """The longest books of `annual` with anodes, with one unit and no fuel."""
    room, units = MOST_ANNUAL // LINE - 2, [unit_line(WET, monitor=True)]
    year = [made(month) for month in MONTHS]
    hours = [sent(hour) for hour in range(1, room - 11)]
    books = {
        "one month alone": [made()] * room,
        "every month over and over": (room // 12 + 1) * year,
        "hours before every month": [*hours, *year],
        "hours after every month": [*year, *hours],
        "a month, hours, and the month again": [made(), *hours[:room - 2], made()],
    }
    for name, records in books.items():
        with cases.case(f"lines, annual and replay: a full book of anodes, {name}"):
            expect_by_model(programs, records[:room], units, [])


def try_months(programs, cases):
    try_once(programs, cases, ANODES)
    try_all_units(programs, cases)
    try_full_books(programs, cases)
