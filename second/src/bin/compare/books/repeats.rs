//! Hours and anodes that stand in an earlier record: of every sort, of any unit and
//! number, next to each other and as far apart as a book allows.

mod ends;
mod full;
mod kinds;
mod many;
mod near_misses;
mod sorts;

pub use full::run as full_books;

use crate::draft::Line;
use crate::exchange::{Exchange, Outcome};
use crate::job::{self, CHECKPOINT};
use crate::random::Random;
use crate::repeats::{self, of_reason, Judged, Key, Kind, KINDS};

pub fn run(exchange: &mut Exchange, rng: &mut Random) -> Outcome<()> {
    sorts::run(exchange, rng)?;
    for kind in KINDS {
        near_misses::run(exchange, rng, kind)?;
        ends::run(exchange, rng, kind)?;
        many::run(exchange, rng, kind)?;
    }
    kinds::run(exchange, rng)
}

fn held_keys(exchange: &mut Exchange, rng: &mut Random, kind: Kind, keys: &[Key]) -> Outcome<()> {
    let records = repeats::judged(kind, keys);
    held(exchange, rng, &repeats::units_of(keys), &records)
}

/// Every record by itself, and the job in two wakes, the first of which ends anywhere.
pub fn held(
    exchange: &mut Exchange,
    rng: &mut Random,
    units: &[Line],
    records: &[Judged],
) -> Outcome<()> {
    let book = repeats::book(units, records);
    for (index, (_, reason)) in (0..).zip(records) {
        job::record(exchange, &book, index, of_reason(*reason))?;
    }
    let junk = rng.junk(CHECKPOINT);
    let cut = rng.index(records.len() + 1) as u32;
    let start = job::fresh(exchange, &book, &junk)?;
    let middle = job::wake(exchange, &book, &start.output, cut, &junk)?;
    let end = job::wake(exchange, &book, &middle.output, u32::MAX, &junk)?;
    let report = job::report_frame(&book, &end.output, &[]);
    exchange.hold(&report, repeats::told(records))?;
    Ok(())
}
