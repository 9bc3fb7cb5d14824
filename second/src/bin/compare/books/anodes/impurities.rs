//! Three impurities in every combination of values about the ends of their range, of
//! that of their sum, and of 16 bits, which sums of several pass.

use super::{counted, held, set_aside, ug_of_carbon, GRAM};
use crate::draft::{Anodes, MOST_IMPURITY};
use crate::exchange::{Exchange, Outcome};
use crate::expectation::Expectation;
use crate::random::Random;

/// 55,536 and 10,000 are 2^16, 60,000 and 5,537 one more.
const VALUES: [u16; 18] = [
    0, 1, 2, 3_333, 3_334, 4_999, 5_000, 5_001, 5_537, 9_998, 9_999, 10_000, 10_001, 32_768,
    55_535, 55_536, 60_000, 65_535,
];

pub fn run(exchange: &mut Exchange, rng: &mut Random) -> Outcome<()> {
    exchange.case("anodes, impurities in every combination");
    let mut cases = Vec::new();
    for sulphur in VALUES {
        for ash in VALUES {
            cases.extend(VALUES.map(|others| case([sulphur, ash, others])));
        }
    }
    held(exchange, rng, &cases)
}

/// The sum in 32 bits, which no three impurities pass.
fn case(impurities: [u16; 3]) -> (Anodes, Vec<Expectation>) {
    let sum: u32 = impurities.iter().map(|&impurity| u32::from(impurity)).sum();
    let told = match u32::from(MOST_IMPURITY).checked_sub(sum) {
        Some(carbon) => counted(ug_of_carbon(u64::from(carbon))),
        None => set_aside(4),
    };
    (Anodes { impurities, ..GRAM }, told)
}
