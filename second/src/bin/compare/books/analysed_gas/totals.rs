//! Analysed gas in the totals: full books of the largest and of such as is rounded, and
//! the thresholds of the decision to a nanogram with such gas in part of T.

use super::super::part_of_total::{self, Part};
use super::{book, nearest_ug, FUEL, GAS, LARGE, SMALL};
use crate::draft::{
    Analysed, Draft, FuelLine, FULL_BOOK, LEAST_MVC, MOST_AMOUNT, MOST_CARBON, MOST_WEIGHT, SETS,
};
use crate::exchange::{Exchange, Outcome};
use crate::expectation::{self, Field};
use crate::job;
use crate::random::Random;

/// Of no CH4 and no N2O, so that a record is known by its CO2 alone.
const PURE: FuelLine = FuelLine {
    number: 9,
    heat: 1,
    co2: 1,
    ch4: 0,
    n2o: 0,
    ..FUEL
};

/// 3,664,000 t each, by the least molar volume.
const LARGEST: Analysed = Analysed {
    fuel: PURE.number,
    amount: MOST_AMOUNT,
    carbon: MOST_CARBON,
    weight: MOST_WEIGHT,
    ..GAS
};

/// Molar volume, amount, carbon and weight, and CO2 in µg. The first is 500 kg of carbon.
/// Of 21,984, which is 6 x 3,664, come a sixth of 9, of 15, and, from products past 64
/// bits, of 5,099,994,849,000,051 and of 5,299,994,647,000,053: each a half.
const PARTS: [(u32, [u32; 3], u64); 6] = [
    (24_000, [1_000, 750_000, 16_000], 1_832_000_000_000),
    (21_984, [3, 1, 3], 2),
    (21_984, [1, 3, 5], 2),
    (24_064, [1, 47, 16], 114),
    (21_984, [99_999_999, 999_999, 51], 849_999_141_500_008),
    (21_984, [99_999_999, 999_999, 53], 883_332_441_166_676),
];

pub fn run(exchange: &mut Exchange, rng: &mut Random) -> Outcome<()> {
    exchange.case("analysed gas, full books of the largest");
    largest(exchange, rng)?;
    exchange.case("analysed gas, full books of every weight up to their room");
    every_weight(exchange, rng)?;
    let parts = PARTS.map(|(mvc, factors, ug)| part(mvc, factors, ug));
    part_of_total::run(exchange, rng, "analysed gas", &parts)
}

fn largest(exchange: &mut Exchange, rng: &mut Random) -> Outcome<()> {
    let fuel = FuelLine {
        mvc: LEAST_MVC,
        ..PURE
    };
    let mut draft = book(Vec::new(), &[fuel]);
    draft.records = vec![LARGEST.line(); draft.room(FULL_BOOK)];
    let kg = 3_664_000_000 * draft.records.len() as u64;
    for set in SETS {
        let book = draft.under(set);
        job::whole(
            exchange,
            rng,
            &book,
            expectation::report([kg, 0, 0, 0, kg], true),
        )?;
        job::in_wakes(exchange, rng, &book)?;
    }
    Ok(())
}

/// By molar volumes with halves and without, on units of every size.
fn every_weight(exchange: &mut Exchange, rng: &mut Random) -> Outcome<()> {
    for mvc in [21_984, 24_064, 23_685] {
        let fuel = FuelLine { mvc, ..PURE };
        let mut draft = book(Vec::new(), &[fuel]);
        let weights = 1..=draft.room(FULL_BOOK) as u32;
        let gases = weights.map(|weight| Analysed {
            unit: if weight % 2 == 0 { LARGE } else { SMALL },
            fuel: PURE.number,
            amount: 99_999_999,
            carbon: 999_999,
            weight,
            ..GAS
        });
        let gases: Vec<Analysed> = gases.collect();
        draft.records = gases.iter().map(Analysed::line).collect();
        held(exchange, rng, &draft, &gases, mvc)?;
    }
    Ok(())
}

/// The whole job against the sum, and every hundredth record by itself.
fn held(
    exchange: &mut Exchange,
    rng: &mut Random,
    draft: &Draft,
    gases: &[Analysed],
    mvc: u32,
) -> Outcome<()> {
    let ug = |gas: &Analysed| nearest_ug([gas.amount, gas.carbon, gas.weight], mvc);
    let book = draft.bytes();
    let total: u128 = gases.iter().map(|gas| u128::from(ug(gas))).sum();
    let kg = ((total + 500_000_000) / 1_000_000_000) as u64;
    job::whole(exchange, rng, &book, vec![Field::FossilKg.is(kg)])?;
    job::in_wakes(exchange, rng, &book)?;
    for (index, gas) in gases.iter().enumerate().step_by(100) {
        job::record(
            exchange,
            &book,
            index as u32,
            vec![Field::Co2Ug.is(ug(gas))],
        )?;
    }
    Ok(())
}

fn part(mvc: u32, [amount, carbon, weight]: [u32; 3], ug: u64) -> Part {
    let gas = Analysed {
        unit: 1,
        fuel: PURE.number,
        amount,
        carbon,
        weight,
        ..GAS
    };
    Part {
        record: gas.line(),
        ug,
        fuel: Some(FuelLine { mvc, ..PURE }.line()),
    }
}
