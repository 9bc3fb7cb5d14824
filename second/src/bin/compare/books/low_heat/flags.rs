//! Every pattern of the named flags of a fuel record, by itself and with each
//! other bit, on every unit and class, with heat and carbon bytes or without.

use super::{book, CARBON, GAS, KINDS_AND_CLASSES, LOW, UNITS};
use crate::draft::{Burnt, FuelLine, Line, CARBON_MEASURED, HEAT_IS_LOW, HEAT_MEASURED};
use crate::exchange::{Exchange, Outcome};
use crate::job;
use crate::random::Random;

const NAMED: u8 = HEAT_MEASURED | CARBON_MEASURED | HEAT_IS_LOW;

pub fn run(exchange: &mut Exchange, rng: &mut Random) -> Outcome<()> {
    exchange.case("every pattern of flags with a low heat value");
    for (kind, class) in KINDS_AND_CLASSES {
        for heat in [0, GAS.heat] {
            let fuel = FuelLine {
                kind,
                class,
                heat,
                ..GAS
            };
            of_fuel(exchange, rng, fuel)?;
        }
    }
    Ok(())
}

fn of_fuel(exchange: &mut Exchange, rng: &mut Random, fuel: FuelLine) -> Outcome<()> {
    for unit in UNITS {
        for bytes in [(0, 0), (35_050, 0), (0, CARBON), (35_050, CARBON)] {
            let draft = book(patterns(unit, bytes), &[fuel]);
            job::everything(exchange, rng, &draft.bytes(), draft.records.len())?;
        }
    }
    Ok(())
}

/// Records that differ in their flags, whatever their heat and carbon bytes.
fn patterns(unit: u16, (heat, carbon): (u32, u32)) -> Vec<Line> {
    let record = Burnt {
        unit,
        heat: Some(heat),
        carbon: Some(carbon),
        ..LOW
    };
    let one_other_at_most = |flags: &u8| (flags & !NAMED).count_ones() <= 1;
    let flags = (0..=u8::MAX).filter(one_other_at_most);
    let with_flags = |flags| {
        let mut line = record.line();
        line[1] = flags;
        line
    };
    flags.map(with_flags).collect()
}
