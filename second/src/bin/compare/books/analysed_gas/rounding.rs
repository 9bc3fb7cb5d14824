//! Every molar volume with what lies next to a half of a microgram, from products past 64
//! bits, and halves from products of all sizes.

use super::{counted, held, nearest_ug, Case, FUEL, GAS};
use crate::draft::{Analysed, FuelLine, LEAST_MVC, MOST_MVC};
use crate::exchange::{Exchange, Outcome};
use crate::molar_halves::{Division, GREAT_PRIMES};
use crate::random::Random;

/// Each with its own molar volume, so that another's would show.
const FUELS_PER_BOOK: usize = 16;

pub fn run(exchange: &mut Exchange, rng: &mut Random) -> Outcome<()> {
    exchange.case("analysed gas, about a half by every molar volume");
    let volumes: Vec<u32> = (LEAST_MVC..=MOST_MVC).collect();
    for volumes in volumes.chunks(FUELS_PER_BOOK) {
        let fuels = gases(volumes);
        let cases: Vec<Case> = fuels.iter().flat_map(about_half).collect();
        held(exchange, rng, &fuels, &cases)?;
    }
    exchange.case("analysed gas, halves by every molar volume that has them");
    let with_halves: Vec<u32> = volumes.into_iter().filter(|mvc| mvc % 32 == 0).collect();
    for volumes in with_halves.chunks(FUELS_PER_BOOK) {
        let fuels = gases(volumes);
        let cases: Vec<Case> = fuels.iter().flat_map(halves).collect();
        held(exchange, rng, &fuels, &cases)?;
    }
    Ok(())
}

/// The last book has fewer.
fn gases(volumes: &[u32]) -> Vec<FuelLine> {
    let gas = |(number, mvc): (u16, &u32)| FuelLine {
        number,
        class: (number % 2) as u8,
        mvc: *mvc,
        ..FUEL
    };
    (1..).zip(volumes).map(gas).collect()
}

fn case(fuel: &FuelLine, [amount, carbon, weight]: [u32; 3]) -> Case {
    let gas = Analysed {
        fuel: fuel.number,
        amount,
        carbon,
        weight,
        ..GAS
    };
    let co2_ug = nearest_ug([amount, carbon, weight], fuel.mvc);
    (gas.line(), counted(co2_ug))
}

fn about_half(fuel: &FuelLine) -> [Case; 3] {
    let division = Division::of(GREAT_PRIMES, fuel.mvc);
    let [amount, carbon] = GREAT_PRIMES;
    division.about_half().map(|rest| {
        let weight = division.greatest_weight_leaving(rest);
        case(fuel, [amount, carbon, weight])
    })
}

/// Odd multiples of the least product that leaves a half, so that quotients are even and
/// odd by turns.
fn halves(fuel: &FuelLine) -> Vec<Case> {
    let least = Division::of([1, 1], fuel.mvc);
    let half = least.about_half()[1];
    let weight = least.least_weight_leaving(half);
    let odd_amounts = [1, 3, 5, 99_999_997, 99_999_999];
    let products = odd_amounts.map(|amount| [amount, 1, weight]);
    products.map(|factors| case(fuel, factors)).to_vec()
}
