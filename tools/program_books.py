"""Books, checkpoints and reports put together by docs/FORMAT.md, and sums in whole numbers.

No program of the repository makes what stands here, except the lines that are added up.
"""
import re
import struct

KILOGRAM, TONNE = 10**12, 10**15  # in ng
LINE, LONGEST = 32, 4_194_304  # bytes of a line, and of the longest book
MOST_ANNUAL = 65_536  # bytes of the longest book that `annual` takes
CHECKPOINT = 96  # bytes
MOST_BEHIND = 5_242_880  # bytes behind a frame's head: book, checkpoint and buffer together
SET_AT = 20  # the byte of the trailer that names a book's set of warming values
WARMING = ((21, 310), (25, 298))  # those of CH4 and N2O, by set
LEDGER_NAMES = ("none", "fossil", "biomass")  # by what `replay` answers


def pad(content):
    return content.ljust(LINE, b"\0")


def heat_flags(heat, low_heat):
    """At most one of the two heats is given."""
    return (heat is not None) + 5 * (low_heat is not None)


def fuel_record(amount=1000, unit=1, fuel=1, month=6, heat=None, carbon=None, low_heat=None):
    flags = heat_flags(heat, low_heat) + 2 * (carbon is not None)
    return pad(struct.pack("<BBHHHIII", 1, flags, unit, fuel, month, amount,
                           heat or low_heat or 0, carbon or 0))


def gas_record(amount=1000, carbon=748_600, weight=16_040, unit=1, fuel=1, month=6, heat=None,
               low_heat=None):
    """Analysed gas, as it stands methane: carbon in mg per kg, molecular weight in g per kmol."""
    return pad(struct.pack("<BBHHHIIII", 3, heat_flags(heat, low_heat), unit, fuel, month, amount,
                           heat or low_heat or 0, carbon, weight))


def hour_record(percent, flow, unit=1, hour=1, moisture=0):
    """The moisture is in tenths of a percent."""
    return pad(struct.pack("<BxHxxHffH", 2, unit, hour, percent, flow, moisture))


def anodes_record(metal=1_000_000, use=420, impurities=(125, 40, 0), unit=1, month=4):
    """The impurities are sulphur, ash and others, in hundredths of a percent."""
    return pad(struct.pack("<BxHxxHIIHHH", 4, unit, month, metal, use, *impurities))


def unit_line(number=1, rating=2500, monitor=False, dry=False):
    return pad(struct.pack("<HBxI", number, monitor + 2 * dry, rating))


def fuel_line(number=1, kind=3, fuel_class=1, heat=38000, co2=50000, ch4=900, n2o=90,
              molar_volume=0):
    return pad(struct.pack("<HBBIIIII", number, kind, fuel_class, heat, co2, ch4, n2o,
                           molar_volume))


def trailer(units_at, fuels_at, year=2010, version=1, warming_set=0):
    return pad(b"STCB" + struct.pack("<HxxIIHxxB", version, units_at, fuels_at, year, warming_set))


def book(records=(fuel_record(),), units=(unit_line(),), fuels=(fuel_line(),), year=2010,
         warming_set=0):
    """A book of these lines. As it stands, the one of docs/FORMAT.md."""
    units_at = LINE * len(records)
    fuels_at = units_at + LINE * len(units)
    last = trailer(units_at, fuels_at, year, warming_set=warming_set)
    return b"".join([*records, *units, *fuels, last])


def patch(content, at, new):
    return content[:at] + new + content[at + len(new):]


def count_of(content):
    return struct.unpack_from("<I", content, len(content) - LINE + 8)[0] // LINE


def year_of(content):
    return struct.unpack_from("<H", content, len(content) - LINE + 16)[0]


def set_of(content):
    return content[len(content) - LINE + SET_AT]


def under_set(content, warming_set):
    """The book with another set of warming values, and the same in all else."""
    return patch(content, len(content) - LINE + SET_AT, bytes([warming_set]))


def checkpoint(of, done=0, ledgers=(0, 0, 0, 0), aside=0, first=0, reason=0):
    """The checkpoint of a book; the ledgers are in ng."""
    parts = b"".join(struct.pack("<QQ", *divmod(mass, TONNE)) for mass in ledgers)
    head = struct.pack("<IIIBxxx", done, aside, first, reason)
    return head + parts + struct.pack("<IH", len(of), year_of(of)) + bytes(10)


def kilograms(mass):
    """Rounded once, half upward."""
    return (2 * mass + KILOGRAM) // (2 * KILOGRAM)


def must_report(total, biomass):
    if total < 25_000 * TONNE:
        total -= min(biomass, 15_000 * TONNE)
    return total >= 10_000 * TONNE


def report(of, ledgers):
    """What is printed of a book whose records give these ledgers, in ng."""
    fossil, biomass, ch4, n2o = ledgers
    ch4_warming, n2o_warming = WARMING[set_of(of)]
    total = fossil + biomass + ch4_warming * ch4 + n2o_warming * n2o
    figures = zip(("fossil-co2", "biomass-co2", "ch4", "n2o", "co2e"), (*ledgers, total))
    lines = [f"year {year_of(of)}", f"records {count_of(of)}"]
    lines += [f"{name}-kg {kilograms(mass)}" for name, mass in figures]
    lines += [f"must-report {'yes' if must_report(total, biomass) else 'no'}"]
    return "".join(line + "\n" for line in lines).encode()


def each_line(front, text):
    """The text with these words in front of each of its lines."""
    return b"".join(front.encode() + line for line in text.splitlines(True))


COUNTED = re.compile(r"record (\d+) (?:method ([1-4])|hour|anodes) (fossil|biomass|none)"
                     r" co2-ug (\d+) ch4-ng (\d+) n2o-ng (\d+)")


def masses_of(lines):
    """What each line of `lines` gives the four ledgers, in ng. Every record must be counted."""
    for index, line in enumerate(lines.decode().splitlines()):
        found = COUNTED.fullmatch(line)
        if not found or int(found[1]) != index:
            raise ValueError(f"line {index} is {line!r}")
        co2, ch4, n2o = (int(found[group]) for group in (4, 5, 6))
        yield (1000 * co2 * (found[3] == "fossil"), 1000 * co2 * (found[3] == "biomass"), ch4, n2o)


def places_of(of, lines):
    """The checkpoint at every place of a job on the book, from no record done to all."""
    ledgers = (0, 0, 0, 0)
    places = [checkpoint(of)]
    for done, masses in enumerate(masses_of(lines), 1):
        ledgers = tuple(map(sum, zip(ledgers, masses)))
        places.append(checkpoint(of, done, ledgers))
    return places


def ledgers_in(saved):
    numbers = struct.unpack_from("<8Q", saved, 16)
    return tuple(TONNE * tonnes + rest for tonnes, rest in zip(numbers[::2], numbers[1::2]))
