//! Random records of analysed gas, and molar volumes.

use second::bytes::{u16_at, u32_at};
use second::lines::GAS;

use super::{heat, wild_heat};
use crate::draft::{
    Analysed, Draft, Line, LAST_MONTH, LEAST_MVC, MOST_AMOUNT, MOST_CARBON, MOST_MVC, MOST_WEIGHT,
    MVC_PLACE,
};
use crate::molar_halves::Division;
use crate::random::Random;

/// In range, every second time one of which there are halves.
pub fn mvc(rng: &mut Random) -> u32 {
    let width = u64::from(MOST_MVC - LEAST_MVC);
    match rng.below(4) {
        0 => rng.pick(&[LEAST_MVC, LEAST_MVC + 1, MOST_MVC - 1, MOST_MVC]),
        1 => LEAST_MVC + rng.below(width + 1) as u32,
        _ => LEAST_MVC + 32 * rng.below(width / 32 + 1) as u32,
    }
}

/// Whether the fuel of this line is a gas that can be analysed.
pub fn is_of(fuel: &Line) -> bool {
    fuel[2] == GAS && u32_at(fuel, MVC_PLACE) > 0
}

/// One in range, every second time at a half of a microgram or next to one.
pub fn good(rng: &mut Random, unit: u16, fuel: &Line) -> Line {
    let (heat, heat_is_low) = heat(rng, fuel);
    let amount = rng.within(MOST_AMOUNT);
    let carbon = rng.within(MOST_CARBON);
    let division = Division::of([amount, carbon], u32_at(fuel, MVC_PLACE));
    let gas = Analysed {
        unit,
        fuel: u16_at(fuel, 0),
        month: 1 + rng.below(u64::from(LAST_MONTH)) as u16,
        amount,
        heat,
        heat_is_low,
        carbon,
        weight: match rng.one_in(2) {
            true => rng.within(MOST_WEIGHT),
            false => {
                let rest = rng.pick(&division.about_half());
                division.greatest_weight_leaving(rest)
            }
        },
    };
    gas.line()
}

/// At or past its edges, mostly of a gas that can be analysed.
pub fn wild(rng: &mut Random, unit: u16, draft: &Draft) -> Line {
    let gases: Vec<Line> = draft.fuels.iter().copied().filter(is_of).collect();
    let fuel = match gases.is_empty() || rng.one_in(4) {
        true => rng.pick(&draft.fuels),
        false => rng.pick(&gases),
    };
    let gas = Analysed {
        unit,
        fuel: u16_at(&fuel, 0) + u16::from(rng.one_in(10)),
        month: rng.edgy(u32::from(LAST_MONTH)) as u16,
        amount: rng.edgy(MOST_AMOUNT),
        heat: wild_heat(rng),
        heat_is_low: rng.one_in(3),
        carbon: rng.edgy(MOST_CARBON),
        weight: rng.edgy(MOST_WEIGHT),
    };
    gas.line()
}
