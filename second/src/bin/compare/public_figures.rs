//! Group 5: figures that public documents print, each turned into a book.
//!
//! Tolerance: a number of the digits d (its value without the decimal point)
//! that was rounded is off by at most half a unit of its last digit, one part
//! in 2d, and in a product such parts add up. This holds for what a source
//! prints and for the whole numbers of a book alike.

mod analysed_gas;
mod anodes_000;
mod dry_gas;
mod factors_002;
mod low_heat_000;
mod ratio;
mod reading;
mod source_000;
mod source_004;
mod table_004;
mod tables_000;
mod units;

use crate::draft::{unit, Burnt, Draft, FuelLine, FIRST_SET};
use crate::exchange::{Exchange, Outcome};
use crate::expectation::{Expectation, Field};
use crate::job;
use crate::random::Random;
use ratio::Ratio;

pub struct PublicFigure {
    /// File, line, table and row.
    pub source: String,
    pub book: Vec<u8>,
    pub expected: Vec<Expectation>,
}

pub const YEAR: u16 = 2009;
const PARTS: u128 = 1_000_000_000_000;

pub fn run(exchange: &mut Exchange, rng: &mut Random) -> Outcome<()> {
    let groups = [
        source_004::figures(),
        source_000::figures(),
        low_heat_000::figures(),
        dry_gas::figures(),
        anodes_000::figures(),
        analysed_gas::figures(),
    ];
    for figure in groups.into_iter().flatten() {
        exchange.case(figure.source);
        job::whole(exchange, rng, &figure.book, figure.expected)?;
    }
    Ok(())
}

/// `kg`, give or take one part in 2d for each of the rounded `digits`. The
/// last kilogram on either side is the rounding of the report's figure and of
/// the end of the range itself, half a kilogram each.
pub fn within_rounding(field: Field, kg: Ratio, digits: &[u128]) -> Expectation {
    let parts: u128 = digits.iter().map(|d| PARTS.div_ceil(2 * d)).sum();
    let share = |parts| kg.times(Ratio::new(parts, PARTS)).nearest() as u64;
    field.between(
        share(PARTS - parts).saturating_sub(1),
        share(PARTS + parts) + 1,
    )
}

/// The book of one fuel with nothing measured, or carbon alone.
pub fn one_record(fuel: FuelLine, amount: u128, carbon: Option<u128>) -> Vec<u8> {
    let record = Burnt {
        amount: amount as u32,
        carbon: carbon.map(|carbon| carbon as u32),
        ..UNMEASURED
    };
    book_of(fuel, record)
}

/// A book of one fuel, burnt once in a unit small enough for method 1.
pub fn book_of(fuel: FuelLine, record: Burnt) -> Vec<u8> {
    let draft = Draft {
        records: vec![record.line()],
        units: vec![unit(1, false, 2_500)],
        fuels: vec![fuel.line()],
        year: YEAR,
        warming_set: FIRST_SET,
    };
    draft.bytes()
}

/// A record that has yet to be given its amount.
pub const UNMEASURED: Burnt = Burnt {
    unit: 1,
    fuel: TRACE.number,
    month: 12,
    amount: 0,
    heat: None,
    heat_is_low: false,
    carbon: None,
};

/// A fuel of no particular class that gives nothing but a trace of CO2.
pub const TRACE: FuelLine = FuelLine {
    number: 1,
    kind: 3,
    class: 0,
    heat: 0,
    co2: 1,
    ch4: 0,
    n2o: 0,
    mvc: 0,
};
