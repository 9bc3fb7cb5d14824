"""The longest books: what the programs print, save and answer of a book of 4,194,304 bytes, and of
one that is a byte or a line longer. Their records differ from place to place, so that none can be
taken for the one 65,536 places before."""
import functools
import itertools

from program_annual import CUT_OFF, P1_MASSES, cut_off, in_pieces
from program_books import LINE, LONGEST, MOST_BEHIND, TONNE, anodes_record, book, checkpoint
from program_books import fuel_line, fuel_record, gas_record, hour_record, kilograms, patch, report
from program_books import unit_line
from program_jobs import ALL, Plan, job_on
from program_model import answer_of, expect_answered, fuel_words, judged, lines_of
from program_model import plan_judged
from program_replay import BLANK, FRESH, RECORD, REPORT, WAKE, answer, frame, record_answer
from program_replay import report_answer
from program_runs import FAILED, expect_answer, expect_told

ROOM = LONGEST // LINE - 3  # records, beside a unit, a fuel and the trailer
FAR = 2**16  # the first place that 16 bits don't hold
STACKS = 12
MASSES = [mass // 1000 for mass in P1_MASSES]  # what one m³ of the delivery P1 gives, in ng


def plan_deliveries(amounts):
    """A book of deliveries as P1 but for their amounts. No program has a part in the plan."""
    of = book([fuel_record(amount) for amount in amounts])
    totals = itertools.accumulate(amounts, initial=0)
    ledgers = [[total * mass for mass in MASSES] for total in totals]
    places = [checkpoint(of, done, masses) for done, masses in enumerate(ledgers)]
    return Plan(of, places, report(of, ledgers[-1]))


@functools.cache
def longest_plan():
    """As many deliveries as a book can have, each of another amount."""
    return plan_deliveries(range(ROOM))


def delivery_lines(amounts):
    co2, _, ch4, n2o = MASSES
    return lines_of(fuel_words(1, "fossil", amount * co2 // 1000, amount * ch4, amount * n2o)
                    for amount in amounts)


@functools.cache
def too_long():
    """Books that are right but for their length, and some that go on behind their trailer."""
    of, longer = longest_plan().book, book([fuel_record(amount) for amount in range(ROOM + 1)])
    return {"a byte more than the longest book": of + b"\0",
            "a line more than the longest book": longer, "twice the longest book": of + of}


def mixed_record(place):
    """Three hours, one to a stack, then analysed gas: every hour of a stack once."""
    if place % 4 == 3:
        return gas_record(amount=place)
    turn = place - place // 4
    return hour_record(12.5, 1000 + place, 2 + turn % STACKS, 1 + turn // STACKS)


@functools.cache
def mixed():
    """The plan of a longest book of every kind but deliveries, and what becomes of each record. The
    first that is set aside stands behind 65,536 others: it repeats the first of all, and the last
    repeats the second."""
    units = [unit_line()] + [unit_line(2 + stack, monitor=True) for stack in range(STACKS)]
    room = LONGEST // LINE - 2 - len(units)
    records = [mixed_record(place) for place in range(room)]
    records[-13:-1] = [anodes_record(metal=month, month=month) for month in range(1, 13)]
    records[FAR], records[-1] = records[0], records[1]
    fuels = [fuel_line(molar_volume=24_060)]
    told = judged(records, units, fuels)
    return plan_judged(book(records, units, fuels), told), told


def try_longest_lines(programs, cases):
    with cases.case("lines: the longest book of deliveries"):
        told = programs.run("lines", data=longest_plan().book)
        expect_told(told, delivery_lines(range(ROOM)))


def try_mixed_lines(programs, cases):
    with cases.case("lines: the longest book of hours, gas and anodes"):
        plan, told = mixed()
        expect_told(programs.run("lines", data=plan.book), lines_of(told))


def try_streams(programs, cases):
    """However the bytes come, and where a read fails behind them."""
    of, sizes = longest_plan().book, [65_536, 1, LINE, 65_535]
    with cases.case("lines: the longest book in odd pieces"):
        expect_told(in_pieces(programs, "lines", of, sizes), delivery_lines(range(ROOM)))
    with cases.case("lines: a byte more than the longest book in odd pieces"):
        expect_told(in_pieces(programs, "lines", of + b"\0", sizes), b"refused 20\n")
    for length in (LONGEST // 2, LONGEST):
        with cases.case(f"lines: a read fails after {length} bytes"):
            expect_answer(cut_off(programs, "lines", of[:length]), FAILED, b"", CUT_OFF)
    with cases.case("annual: the longest book is more than it takes"):
        expect_told(programs.run("annual", data=of), b"refused 20\n")


def try_too_long_lines(programs, cases):
    for name, of in too_long().items():
        with cases.case(f"lines: {name} is refused with 20"):
            expect_told(programs.run("lines", data=of), b"refused 20\n")


def try_too_long_wakes(programs, cases):
    """They are refused before anything is looked at or touched."""
    plan = longest_plan()
    for name, of in too_long().items():
        with cases.case(f"wake: {name} is refused with 20"), job_on(programs, of) as job:
            for saved, copy in ((None, None), (plan.places[FAR], plan.book)):
                job.stand(saved, copy)
                before = job.files()
                for more in ([], ["fresh"]):
                    expect_told(job.wake(1, *more), b"refused 20\n")
                    job.expect_kept(before)


def try_too_long_frames(programs, cases):
    plan = longest_plan()
    for name, of in too_long().items():
        if len(of) < MOST_BEHIND:
            with cases.case(f"replay: {name} is refused with 20"):
                calls = [(frame(FRESH, 0, of, b"", BLANK), answer(20, out=BLANK)),
                         (frame(WAKE, 1, of, plan.places[0], BLANK), answer(20, out=BLANK)),
                         (frame(REPORT, 0, of, plan.places[-1]), answer(20)),
                         (frame(RECORD, FAR, of), record_answer(20))]
                expect_answered(programs, calls)


def try_long_jobs(programs, cases):
    """Wakes that end at the edges of 16 bits, begin there, or go over them."""
    edge = FAR - 1
    for name, plan, budgets in (
            ("deliveries", longest_plan(), [ALL]), ("deliveries", longest_plan(), [FAR, 0, ALL]),
            ("every kind", mixed()[0], [edge, 1, 1, ALL]), ("every kind", mixed()[0], [1, ALL])):
        with cases.case(f"wake: the longest book of {name}, by {budgets}"), job_on(
                programs, plan.book) as job:
            place = 0
            for budget in budgets:
                place = job.expect_woken(plan, place, budget)
            job.expect_woken(plan, place, ALL)


def calls_at(plan, told):
    """Wakes and looks about the edge of 16 bits, at both ends and past the last."""
    of, last = plan.book, plan.count
    starts = (0, 2**32 - 1), (1, FAR), (FAR - 1, 1), (FAR, 1), (FAR + 1, 0), (last, 5)
    for place, budget in starts:
        moved = plan.moved(place, budget)
        yield (frame(WAKE, budget, of, plan.places[place], BLANK),
               answer(count=moved, out=plan.places[place + moved]))
    for place in (0, FAR - 1, FAR, FAR + 1, last - 1):
        yield frame(RECORD, place, of), answer_of(told[place])
    for place in (last, last + FAR, 2**32 - 1):
        yield frame(RECORD, place, of), record_answer(method=255)
    yield frame(REPORT, 0, of, plan.places[FAR + 1]), answer(40, count=FAR + 1)


def try_far_frames(programs, cases):
    plan, told = mixed()
    with cases.case("replay: calls on the longest book of every kind"):
        calls = [*calls_at(plan, told),
                 (frame(FRESH, 0, plan.book, b"", BLANK), answer(out=plan.places[0])),
                 (frame(REPORT, 0, plan.book, plan.places[-1]), answer(41, 8, FAR))]
        expect_answered(programs, calls)


def try_most_tonnes(programs, cases):
    """Checkpoints with as much as all records could give, with a tonne more, and a record more."""
    of, most = longest_plan().book, 4_000_000 * ROOM
    full = 4 * (most * TONNE + TONNE - 1,)
    sums = [full[0], full[0], full[0], full[0], (2 + 21 + 310) * full[0]]
    told = patch(report_answer(*map(kilograms, sums)), 48, b"\1")
    with cases.case("replay: the most tonnes that the longest book may have"):
        saved = checkpoint(of, ROOM, full)
        calls = [(frame(WAKE, 1, of, saved, BLANK), answer(out=saved)),
                 (frame(REPORT, 0, of, saved), told)]
        for wrong in (checkpoint(of, ROOM, (*full[:3], full[3] + 1)),
                      checkpoint(of, ROOM - 1, full), checkpoint(of, ROOM + 1)):
            calls.append((frame(WAKE, 1, of, wrong, BLANK), answer(31, out=BLANK)))
        expect_answered(programs, calls)


def try_long(programs, cases):
    for attempt in (try_longest_lines, try_mixed_lines, try_streams, try_too_long_lines,
                    try_too_long_wakes, try_too_long_frames, try_long_jobs, try_far_frames,
                    try_most_tonnes):
        attempt(programs, cases)
