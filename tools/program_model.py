"""What becomes of a book's records, by the judge and by what stands before each of them: what the
programs have to print, save and answer of them at every place of a job."""
import itertools
import struct

from program_books import COUNTED, LEDGER_NAMES, book, checkpoint, fuel_record, masses_of
from program_books import unit_line
from program_dry import hour_of
from program_jobs import ALL, Plan, end_of
from program_judge import judge_anodes, judge_gas, judge_hour
from program_lines import FUELS, UNITS
from program_replay import BLANK, RECORD, REPORT, WAKE, answer, frame, record_answer
from program_runs import expect, expect_told

HOUR, GAS, ANODES = 2, 3, 4  # byte 0 of a record
LISTED = [*UNITS, unit_line(259, monitor=True)]
# FAR differs from WET in the higher byte alone. UNLISTED is no unit of the book.
UNMONITORED, WET, UNLISTED, DRY, FAR = 1, 3, 4, 5, 259
BUDGETS = (1, 2, 3, 4, 10, int(ALL))


def fuel_words(method, ledger, co2, ch4, n2o):
    return f"method {method} {ledger} co2-ug {co2} ch4-ng {ch4} n2o-ng {n2o}"


def burned(method, co2, ch4=34_200_000_000, n2o=3_420_000_000):
    """What stands behind the index of fossil fuel, with CH4 and N2O of P1 if none are given."""
    return fuel_words(method, "none" if method == 4 else "fossil", co2, ch4, n2o)


# Deliveries, with what stands behind their index. The last has bytes 2 to 7 of the hour 7, and 8 to
# 11 of its percent, 12.5; so it names fuel 0.
DELIVERY, IN_MONTH_7 = fuel_record(unit=WET), fuel_record(unit=WET, month=7)
AS_HOUR = fuel_record(0x41480000, WET, fuel=0, month=7)
BURNED = burned(4, 0)
OTHERS = {DELIVERY: BURNED, IN_MONTH_7: BURNED, AS_HOUR: "reason 3"}


def anodes_of(co2):
    return f"anodes fossil co2-ug {co2} ch4-ng 0 n2o-ng 0"


# What a book may have once: who judges it by itself, and the words for its CO2.
ONCE = {HOUR: (judge_hour, hour_of), ANODES: (judge_anodes, anodes_of)}


def gas_words(record, units, fuels):
    told, *numbers = judge_gas(record, b"".join(units), b"".join(fuels))
    return fuel_words(*numbers) if told == "fuel" else f"reason {numbers[0]}"


def words_of(record, is_repeat, units, fuels):
    """What stands behind the index of a record. One of another kind, or with the readings of an hour
    where nothing is flagged, has a wrong form."""
    if record[0] == GAS:
        return gas_words(record, units, fuels)
    if record[0] not in ONCE:
        return OTHERS.get(record, "reason 1")
    judge, counted = ONCE[record[0]]
    told, number = judge(record, b"".join(units))
    if told == "reason":
        return f"reason {number}"
    return "reason 8" if is_repeat else counted(number)


def judged(records, units, fuels=FUELS):
    """The same of all records. An earlier one of the same kind counts as sent whatever it holds."""
    before, told = set(), []
    for record in records:
        named = record[:1] + record[2:4] + record[6:8]
        told.append(words_of(record, named in before, units, fuels))
        before.add(named)
    return told


def lines_of(told):
    return "".join(f"record {i} {words}\n" for i, words in enumerate(told)).encode()


def reason_in(words):
    return int(words.removeprefix("reason ")) if words.startswith("reason ") else 0


def plan_of(records, units=LISTED, fuels=FUELS):
    """What a job on these records has to print and save at every place, by the model alone."""
    return plan_judged(book(records, units, fuels), judged(records, units, fuels))


def plan_judged(of, told):
    """The same of a book, by what becomes of its records."""
    ledgers, aside, first = (0, 0, 0, 0), 0, (0, 0)
    places = [checkpoint(of)]
    for index, words in enumerate(told):
        reason = reason_in(words)
        if reason:
            first, aside = first if aside else (index, reason), aside + 1
        else:
            ledgers = tuple(map(sum, zip(ledgers, *masses_of(lines_of([words])))))
        places.append(checkpoint(of, index + 1, ledgers, aside, *first))
    return Plan(of, places, end_of(of, places[-1]))


def answer_of(words):
    """What `replay` answers to the look at one record."""
    reason = reason_in(words)
    if reason:
        return record_answer(reason=reason)
    _, method, ledger, *masses = COUNTED.fullmatch(f"record 0 {words}").groups()
    return record_answer(method=int(method or 0), ledger=LEDGER_NAMES.index(ledger),
                         masses=map(int, masses))


def calls_of(plan, told, places):
    """Calls on a plan's book, each with its answer: from these places wakes with every budget and a
    look at the record there, and the report if a record was set aside."""
    for place, budget in itertools.product(places, BUDGETS):
        moved = plan.moved(place, budget)
        yield (frame(WAKE, budget, plan.book, plan.places[place], BLANK),
               answer(count=moved, out=plan.places[place + moved]))
    for place in places:
        yield (frame(RECORD, place, plan.book),
               answer_of(told[place]) if place < plan.count else record_answer(method=255))
    aside, first, reason = struct.unpack_from("<IIB", plan.places[-1], 4)
    if aside:
        yield frame(REPORT, 0, plan.book, plan.places[-1]), answer(41, reason, first)


def expect_answered(programs, calls):
    """`replay` gives each answer; of a wrong one, the fault says to which call."""
    asked, answers = zip(*calls)
    told, at = programs.run("replay", data=b"".join(asked)), 0
    for index, wanted in enumerate(answers):
        expect(told.out[at:at + len(wanted)], wanted, f"the answer to call {index}")
        at += len(wanted)
    expect_told(told, b"".join(answers))


def expect_by_model(programs, records, units=LISTED, fuels=FUELS):
    """What `lines` and `annual` print, and what `replay` answers, at all places of a short book."""
    plan, told = plan_of(records, units, fuels), judged(records, units, fuels)
    expect_told(programs.run("lines", data=plan.book), lines_of(told))
    expect_told(programs.run("annual", data=plan.book), plan.ended)
    places = range(plan.count + 1) if plan.count < 30 else (0, 1, plan.count // 2, plan.count - 1)
    expect_answered(programs, calls_of(plan, told, places))
