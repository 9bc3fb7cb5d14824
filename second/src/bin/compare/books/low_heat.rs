//! Low heat values: their edges and halves, every pattern of flags about them,
//! and the order of the reasons.

mod flags;
mod reasons;
mod values;

use crate::draft::{unit, Burnt, Draft, FuelLine, Line, FIRST_SET};
use crate::exchange::{Exchange, Outcome};
use crate::random::Random;

const SMALL: u16 = 1;
const LARGE: u16 = 2;
const MONITORED: u16 = 3;
const UNITS: [u16; 3] = [SMALL, LARGE, MONITORED];

/// Every class with the kinds that may go with it.
const KINDS_AND_CLASSES: [(u8, u8); 6] = [(1, 0), (2, 0), (3, 0), (3, 1), (2, 2), (1, 3)];

const GAS: FuelLine = FuelLine {
    number: 1,
    kind: 3,
    class: 1,
    heat: 38_000,
    co2: 50_000,
    ch4: 900,
    n2o: 90,
    mvc: 0,
};

const LOW: Burnt = Burnt {
    unit: SMALL,
    fuel: GAS.number,
    month: 7,
    amount: 1_000,
    heat: Some(35_050),
    heat_is_low: true,
    carbon: None,
};

const CARBON: u32 = 520_000;

pub fn run(exchange: &mut Exchange, rng: &mut Random) -> Outcome<()> {
    values::run(exchange, rng)?;
    flags::run(exchange, rng)?;
    reasons::run(exchange, rng)
}

/// A book of the three units, these fuels and these records.
fn book(records: Vec<Line>, fuels: &[FuelLine]) -> Draft {
    Draft {
        records,
        units: vec![
            unit(SMALL, false, 2_500),
            unit(LARGE, false, 2_501),
            unit(MONITORED, true, 2_501),
        ],
        fuels: fuels.iter().map(FuelLine::line).collect(),
        year: 2013,
        warming_set: FIRST_SET,
    }
}
