//! Every pattern of the flags of analysed gas, on every unit and gas, with heat or without.

use super::{held, Case, DRY, FUEL, GAS, LARGE, SMALL, WET};
use crate::draft::{put, FuelLine, HEAT_IS_LOW, HEAT_MEASURED, MOST_LOW_HEAT, NATURAL_GAS};
use crate::exchange::{Exchange, Outcome};
use crate::random::Random;
use crate::repeats::of_reason;

const UNITS: [u16; 4] = [SMALL, LARGE, WET, DRY];
const HEATS: [u32; 3] = [0, MOST_LOW_HEAT, MOST_LOW_HEAT + 1];

pub fn run(exchange: &mut Exchange, rng: &mut Random) -> Outcome<()> {
    exchange.case("every pattern of the flags of analysed gas");
    for class in [0, NATURAL_GAS] {
        for default_heat in [0, FUEL.heat] {
            let fuel = FuelLine {
                class,
                heat: default_heat,
                ..FUEL
            };
            of_fuel(exchange, rng, fuel)?;
        }
    }
    Ok(())
}

fn of_fuel(exchange: &mut Exchange, rng: &mut Random, fuel: FuelLine) -> Outcome<()> {
    for unit in UNITS {
        for heat in HEATS {
            let cases = (0..=u8::MAX).map(|flags| case(&fuel, unit, heat, flags));
            held(exchange, rng, &[fuel], &cases.collect::<Vec<Case>>())?;
        }
    }
    Ok(())
}

/// A record with these flags, whatever its heat bytes.
fn case(fuel: &FuelLine, unit: u16, heat: u32, flags: u8) -> Case {
    let mut line = GAS.line();
    line[1] = flags;
    put(&mut line, 2, &unit.to_le_bytes());
    put(&mut line, 12, &heat.to_le_bytes());
    (line, of_reason(reason(fuel, heat, flags)))
}

fn reason(fuel: &FuelLine, heat: u32, flags: u8) -> u64 {
    const HIGH: u8 = HEAT_MEASURED;
    const LOW: u8 = HEAT_MEASURED | HEAT_IS_LOW;
    match (flags, heat) {
        (0, 0) if fuel.heat == 0 => 7,
        (0, 0) => 0,
        (HIGH | LOW, 0) => 4,
        (LOW, _) if fuel.class != NATURAL_GAS || heat > MOST_LOW_HEAT => 4,
        (HIGH | LOW, _) => 0,
        _ => 1,
    }
}
