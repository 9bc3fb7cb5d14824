//! A book of which a record before the checkpoint's place is edited between two wakes:
//! whether a later one is repeated is told by the book that the wake is given.

use crate::draft::{put, Line, LINE, NUMBER_PLACE};
use crate::exchange::{Exchange, Outcome};
use crate::expectation::{withheld, Expectation, Field};
use crate::job::{self, CHECKPOINT};
use crate::random::Random;
use crate::repeats::{self, monitored, Judged, Key, Kind, COUNTED, KINDS, OUT_OF_RANGE, REPEATED};

/// So many hours stand between the first record and the last.
const BETWEEN: [u16; 5] = [0, 1, 3, 40, 300];

/// How the first record differs from the last, its reason, and what the last one
/// then has.
type Edit = (fn(&mut Line), u64, u64);

const OF_ANY_KIND: [Edit; 9] = [
    (|_| {}, COUNTED, REPEATED),
    (|line| line[8..12].fill(0xFF), OUT_OF_RANGE, REPEATED),
    (|line| line[4] = 1, 1, REPEATED),
    (|line| line[LINE - 1] = 1, 1, REPEATED),
    (|line| line[NUMBER_PLACE] ^= 1, COUNTED, COUNTED),
    (|line| line[2] = 2, COUNTED, COUNTED),
    (|line| line[3] = 1, COUNTED, COUNTED),
    (|line| line[0] = 1, 1, COUNTED),
    (|line| line.fill(0), 1, COUNTED),
];

const OF_HOURS: [Edit; 3] = [
    (twice_the_percent_half_the_flow, COUNTED, REPEATED),
    (|line| line[NUMBER_PLACE + 1] ^= 1, COUNTED, COUNTED),
    (
        |line| line[0] = Kind::Anodes.byte_0(),
        OUT_OF_RANGE,
        COUNTED,
    ),
];

const OF_ANODES: [Edit; 3] = [
    (twice_the_metal_half_the_use, COUNTED, REPEATED),
    (|line| line[NUMBER_PLACE + 1] ^= 1, OUT_OF_RANGE, COUNTED),
    (|line| line[0] = Kind::Hours.byte_0(), 1, COUNTED),
];

fn twice_the_percent_half_the_flow(line: &mut Line) {
    put(line, 8, &25f32.to_le_bytes());
    put(line, 12, &1_000_000f32.to_le_bytes());
}

fn twice_the_metal_half_the_use(line: &mut Line) {
    put(line, 8, &5_000u32.to_le_bytes());
    put(line, 12, &250u32.to_le_bytes());
}

pub fn run(exchange: &mut Exchange, rng: &mut Random) -> Outcome<()> {
    for kind in KINDS {
        let own = match kind {
            Kind::Hours => OF_HOURS,
            Kind::Anodes => OF_ANODES,
        };
        let edits = || OF_ANY_KIND.into_iter().chain(own);
        let name = kind.name();
        exchange.case(format!(
            "a book edited before the checkpoint's place, {name} repeated or not"
        ));
        for between in BETWEEN {
            for (before, after) in edits().flat_map(|one| edits().map(move |other| (one, other))) {
                edited(exchange, rng, kind, between, [before, after])?;
            }
        }
    }
    Ok(())
}

/// Of the last record; an edit of it makes the first, which is none of the hours between
/// even as an hour.
fn last_key(kind: Kind) -> Key {
    match kind {
        Kind::Hours => (1, 4_000),
        Kind::Anodes => (1, 7),
    }
}

fn edited(
    exchange: &mut Exchange,
    rng: &mut Random,
    kind: Kind,
    between: u16,
    [before, after]: [Edit; 2],
) -> Outcome<()> {
    let (home, abroad) = (book(kind, before, between), book(kind, after, between));
    let junk = rng.junk(CHECKPOINT);
    let start = job::fresh(exchange, &home, &junk)?;
    for first_budget in [1, 1 + u32::from(between)] {
        let middle = job::wake(exchange, &home, &start.output, first_budget, &junk)?;
        let end = job::wake(exchange, &abroad, &middle.output, u32::MAX, &junk)?;
        let report = job::report_frame(&abroad, &end.output, &[]);
        exchange.hold(&report, told(kind, before, after, between))?;
    }
    Ok(())
}

fn book(kind: Kind, (edit, reason, reason_of_last): Edit, between: u16) -> Vec<u8> {
    let last = kind.record(last_key(kind));
    let mut first = last;
    edit(&mut first);
    let mut records: Vec<Judged> = vec![(first, reason)];
    let hour = |place| (Kind::Hours.record((2 - place % 2, 1 + place)), COUNTED);
    records.extend((0..between).map(hour));
    records.push((last, reason_of_last));
    repeats::book(&monitored([1, 2, 257]), &records)
}

/// The first record is judged by the book before the edit, the last by the one after.
fn told(kind: Kind, before: Edit, after: Edit, between: u16) -> Vec<Expectation> {
    let between = u64::from(between);
    let fossil_kg = 2 * kind.kilograms() + between * Kind::Hours.kilograms();
    match (before.1, after.2) {
        (COUNTED, COUNTED) => vec![Field::Number.is(0), Field::FossilKg.is(fossil_kg)],
        (COUNTED, reason) => withheld(1 + between, reason),
        (reason, _) => withheld(0, reason),
    }
}
