//! Hours of dry units: moisture at every value, R rounded from every multiple,
//! special readings, the order of the reasons, and the flags that say dry.

mod readings;
mod reasons;
mod rounding;
mod unit_flags;
mod units;
mod values;

use crate::draft::{dry_unit, numbered_apart, unit, Draft, Line, FIRST_SET};
use crate::exchange::{Exchange, Outcome};
use crate::expectation::{Expectation, Field};
use crate::job;
use crate::random::Random;

const WET: u16 = 1;
const DRY: u16 = 2;
/// Without a monitor.
const PLAIN: u16 = 3;
const UNLISTED: u16 = 4;

const HOURS_PER_BOOK: usize = 64;

pub fn run(exchange: &mut Exchange, rng: &mut Random) -> Outcome<()> {
    values::run(exchange, rng)?;
    reasons::run(exchange, rng)?;
    unit_flags::run(exchange, rng)?;
    units::run(exchange, rng)?;
    rounding::run(exchange, rng)?;
    readings::run(exchange, rng)
}

/// A book of the three sorts of unit and these records, whose hours are numbered
/// apart.
fn book(records: Vec<Line>) -> Draft {
    Draft {
        records: numbered_apart(records),
        units: vec![
            unit(WET, true, 2_500),
            dry_unit(DRY, 2_500),
            unit(PLAIN, false, 2_500),
        ],
        fuels: Vec::new(),
        year: 2014,
        warming_set: FIRST_SET,
    }
}

/// Hours, each with what call 4 must say of it, in as many books as they need.
fn held(
    exchange: &mut Exchange,
    rng: &mut Random,
    hours: &[(Line, Vec<Expectation>)],
) -> Outcome<()> {
    for hours in hours.chunks(HOURS_PER_BOOK) {
        let book = book(hours.iter().map(|(line, _)| *line).collect()).bytes();
        for (index, (_, printed)) in (0..).zip(hours) {
            job::record(exchange, &book, index, printed.clone())?;
        }
        job::whole(exchange, rng, &book, Vec::new())?;
        job::in_wakes(exchange, rng, &book)?;
    }
    Ok(())
}

fn counted(r: u64) -> Vec<Expectation> {
    vec![
        Field::Reason.is(0),
        Field::Method.is(0),
        Field::Ledger.is(1),
        Field::Co2Ug.is(518 * r),
    ]
}

fn set_aside(reason: u64) -> Vec<Expectation> {
    vec![Field::Number.is(0), Field::Reason.is(reason)]
}
