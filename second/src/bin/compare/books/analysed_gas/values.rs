//! Amounts, carbon and molecular weights of all sizes, and past their ends; each gas of a
//! book has a molar volume of its own.

use super::{counted, held, nearest_ug, Case, FUEL, GAS};
use crate::draft::{Analysed, FuelLine, MOST_AMOUNT, MOST_CARBON, MOST_WEIGHT};
use crate::exchange::{Exchange, Outcome};
use crate::random::Random;
use crate::repeats::of_reason;

const AMOUNTS: [u32; 8] = [
    0,
    1,
    3,
    255,
    65_536,
    16_777_216,
    MOST_AMOUNT - 1,
    MOST_AMOUNT,
];
const CARBONS: [u32; 8] = [0, 1, 7, 256, 65_535, 748_635, MOST_CARBON - 1, MOST_CARBON];
const WEIGHTS: [u32; 7] = [1, 2, 256, 16_040, 65_536, MOST_WEIGHT - 1, MOST_WEIGHT];

/// The ends of their range, ones of which there are halves, and odd ones.
const VOLUMES: [u32; 7] = [20_000, 27_000, 23_685, 21_984, 24_064, 26_999, 20_001];

/// Each beside values at the ends of the others' ranges.
const PAST: [[u32; 3]; 16] = [
    [MOST_AMOUNT + 1, 0, 1],
    [MOST_AMOUNT + 1, MOST_CARBON, MOST_WEIGHT],
    [1 << 31, 1, 1],
    [u32::MAX, 1, 1],
    [0, MOST_CARBON + 1, 1],
    [MOST_AMOUNT, MOST_CARBON + 1, MOST_WEIGHT],
    [1, 4_000_000, 1],
    [1, 4_000_001, 1],
    [1, 1 << 24, 1],
    [1, u32::MAX, 1],
    [0, 0, 0],
    [MOST_AMOUNT, MOST_CARBON, 0],
    [0, 0, MOST_WEIGHT + 1],
    [MOST_AMOUNT, MOST_CARBON, MOST_WEIGHT + 1],
    [1, 1, 65_536 * 4],
    [1, 1, u32::MAX],
];

pub fn run(exchange: &mut Exchange, rng: &mut Random) -> Outcome<()> {
    exchange.case("analysed gas, amount, carbon and weight of all sizes");
    held(exchange, rng, &gases(), &of_all_sizes())?;
    exchange.case("analysed gas, amount, carbon and weight past their ranges");
    let past = (0..)
        .zip(PAST)
        .map(|(place, factors)| -> Case { (gas(place, factors).line(), of_reason(4)) });
    held(exchange, rng, &gases(), &past.collect::<Vec<Case>>())
}

/// Of both classes.
fn gases() -> Vec<FuelLine> {
    let gas = |(place, mvc): (usize, u32)| FuelLine {
        number: number(place),
        class: (place % 2) as u8,
        mvc,
        ..FUEL
    };
    VOLUMES.into_iter().enumerate().map(gas).collect()
}

fn number(place: usize) -> u16 {
    10 * (1 + place) as u16
}

/// By turns of each volume.
fn gas(place: usize, [amount, carbon, weight]: [u32; 3]) -> Analysed {
    Analysed {
        fuel: number(place % VOLUMES.len()),
        month: 1 + (place % 12) as u16,
        amount,
        carbon,
        weight,
        ..GAS
    }
}

fn of_all_sizes() -> Vec<Case> {
    let mut cases = Vec::new();
    for amount in AMOUNTS {
        for carbon in CARBONS {
            for weight in WEIGHTS {
                let (place, factors) = (cases.len(), [amount, carbon, weight]);
                let co2_ug = nearest_ug(factors, VOLUMES[place % VOLUMES.len()]);
                cases.push((gas(place, factors).line(), counted(co2_ug)));
            }
        }
    }
    cases
}
