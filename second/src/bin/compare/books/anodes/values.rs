//! Every use and every part of carbon, and metal at all sizes: every remainder of the
//! division by 10 from the least to the largest masses.

use super::{counted, held, set_aside, ug_of_carbon, GRAM};
use crate::draft::{Anodes, MOST_IMPURITY, MOST_METAL, MOST_USE};
use crate::exchange::{Exchange, Outcome};
use crate::expectation::Expectation;
use crate::random::Random;

type Case = (Anodes, Vec<Expectation>);

/// Where bits of the products come to their ends.
const METALS: [u32; 16] = [
    0, 1, 2, 3, 4, 5, 6, 7, 255, 256, 65_535, 65_536, 16_777_216, 99_999_998, 99_999_999,
    MOST_METAL,
];

pub fn run(exchange: &mut Exchange, rng: &mut Random) -> Outcome<()> {
    exchange.case("anodes, every use up to its limit and some past it");
    let uses = (0..=MOST_USE).map(|net_use| case(Anodes { net_use, ..GRAM }));
    let past = [1_001, 1_024, 65_535, 65_536, 66_000, 1 << 31, u32::MAX];
    let past = past.map(|net_use| (Anodes { net_use, ..GRAM }, set_aside(4)));
    held(exchange, rng, &uses.chain(past).collect::<Vec<Case>>())?;
    exchange.case("anodes, every part of carbon");
    let parts = (0..=MOST_IMPURITY).map(|impurity| {
        let mut anodes = GRAM;
        anodes.impurities[usize::from(impurity % 3)] = impurity;
        case(anodes)
    });
    held(exchange, rng, &parts.collect::<Vec<Case>>())?;
    exchange.case("anodes, metal and use of all sizes, every remainder");
    held(exchange, rng, &of_all_sizes())?;
    exchange.case("anodes, metal past its limit");
    let past = [1, 100, 1 << 24, u32::MAX - MOST_METAL].map(|more| {
        let metal = MOST_METAL + more;
        (Anodes { metal, ..GRAM }, set_aside(4))
    });
    held(exchange, rng, &past)
}

fn of_all_sizes() -> Vec<Case> {
    let mut cases = Vec::new();
    for metal in METALS {
        for net_use in [0, 1, 2, 3, 7, 255, 256, 998, 999, MOST_USE] {
            for impurity in [0, 1, 2, 3, 4, 5_000, 9_996, 9_999, MOST_IMPURITY] {
                cases.push(case(Anodes {
                    metal,
                    net_use,
                    impurities: [0, impurity, 0],
                    ..GRAM
                }));
            }
        }
    }
    cases
}

/// Of a record whose impurities are one alone.
fn case(anodes: Anodes) -> Case {
    let carbon = MOST_IMPURITY - anodes.impurities.iter().sum::<u16>();
    let grams = u64::from(anodes.metal) * u64::from(anodes.net_use);
    (anodes, counted(ug_of_carbon(grams * u64::from(carbon))))
}
