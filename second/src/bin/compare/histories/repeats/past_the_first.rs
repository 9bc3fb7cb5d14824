//! Checkpoints that no wake made, whose place lies past the first of a pair, and ones
//! that name each reason there is and each that there isn't.

use second::answer::{Call, Frame};

use crate::draft::{put, unit};
use crate::exchange::{Exchange, Outcome};
use crate::expectation::{withheld, Expectation, Field};
use crate::job::{self, CHECKPOINT};
use crate::random::Random;
use crate::repeats::{self, monitored, Judged, Key, Kind, COUNTED, KINDS, REPEATED};

const UNSOUND: u64 = 31;
const REASONS: std::ops::RangeInclusive<u8> = 1..=8;

const WITHOUT_MONITOR: u16 = 3;

/// Each record with its reason, but for those of the unit without a monitor.
const RECORDS: [(Key, u64); 9] = [
    ((1, 1), COUNTED),
    ((1, 2), COUNTED),
    ((1, 1), REPEATED),
    ((2, 2), COUNTED),
    ((1, 2), REPEATED),
    ((1, 1), REPEATED),
    ((WITHOUT_MONITOR, 1), COUNTED),
    ((WITHOUT_MONITOR, 1), REPEATED),
    ((2, 1), COUNTED),
];

fn judged(kind: Kind) -> [Judged; RECORDS.len()] {
    RECORDS.map(|(key, reason)| match (kind, key) {
        (Kind::Hours, (WITHOUT_MONITOR, _)) => (kind.record(key), 5),
        _ => (kind.record(key), reason),
    })
}

fn book(kind: Kind) -> Vec<u8> {
    let mut units = monitored([1, 2]);
    units.push(unit(WITHOUT_MONITOR, false, 2_500));
    repeats::book(&units, &judged(kind))
}

pub fn run(exchange: &mut Exchange, rng: &mut Random) -> Outcome<()> {
    for kind in KINDS {
        let name = kind.name();
        exchange.case(format!(
            "{name}, a place past the first of a pair that no wake came to"
        ));
        let book = book(kind);
        let start = job::fresh(exchange, &book, &rng.junk(CHECKPOINT))?;
        for place in 0..=RECORDS.len() {
            let mut checkpoint = start.output.clone();
            checkpoint[0] = place as u8;
            gone_on(exchange, &book, &checkpoint, told_from(kind, place))?;
        }
    }
    every_reason(exchange, rng)
}

fn every_reason(exchange: &mut Exchange, rng: &mut Random) -> Outcome<()> {
    exchange.case("checkpoints that name every reason from 0 to 255");
    let book = book(Kind::Hours);
    let start = job::fresh(exchange, &book, &rng.junk(CHECKPOINT))?;
    for place in [1, 3, RECORDS.len()] {
        for reason in 0..=u8::MAX {
            let mut checkpoint = start.output.clone();
            put(&mut checkpoint, 0, &[place as u8, 0, 0, 0, 1]);
            checkpoint[12] = reason;
            let told = match REASONS.contains(&reason) {
                true => withheld(0, u64::from(reason)),
                false => vec![Field::Number.is(UNSOUND)],
            };
            gone_on(exchange, &book, &checkpoint, told)?;
        }
    }
    Ok(())
}

/// The report where none was set aside before a place and nothing added.
fn told_from(kind: Kind, place: usize) -> Vec<Expectation> {
    let records = judged(kind);
    let reasons = || records.iter().map(|(_, reason)| *reason).skip(place);
    let first = (place as u64..)
        .zip(reasons())
        .find(|(_, reason)| *reason != COUNTED);
    match first {
        Some((index, reason)) => withheld(index, reason),
        None => vec![
            Field::Number.is(0),
            Field::FossilKg.is(kind.kilograms() * reasons().count() as u64),
        ],
    }
}

/// By one wake and by two, the first of one record.
fn gone_on(
    exchange: &mut Exchange,
    book: &[u8],
    checkpoint: &[u8],
    told: Vec<Expectation>,
) -> Outcome<()> {
    for first_budget in [u32::MAX, 1] {
        let wake = Frame {
            call: Call::Wake,
            argument: first_budget,
            book,
            checkpoint,
            // A wake that is refused leaves it as it is, and the next is refused too.
            output: checkpoint,
        };
        let first = exchange.ask(&wake)?;
        let last = job::wake(exchange, book, &first.output, u32::MAX, checkpoint)?;
        let report = job::report_frame(book, &last.output, &[]);
        exchange.hold(&report, told.clone())?;
    }
    Ok(())
}
