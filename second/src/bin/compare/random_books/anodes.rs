//! Random anode records.

use crate::draft::{Anodes, Line, LAST_MONTH, MOST_IMPURITY, MOST_METAL, MOST_USE};
use crate::random::Random;

/// One that counts, unless the unit has had this month.
pub fn good(rng: &mut Random, unit: u16) -> Line {
    let anodes = Anodes {
        unit,
        month: 1 + rng.below(u64::from(LAST_MONTH)) as u16,
        metal: rng.within(MOST_METAL),
        net_use: rng.within(MOST_USE),
        impurities: impurities(rng),
    };
    anodes.line()
}

/// They add up to the whole at most, and to just it now and then.
fn impurities(rng: &mut Random) -> [u16; 3] {
    let mut left = match rng.below(4) {
        0 => MOST_IMPURITY,
        1 => 1_000,
        _ => rng.below(u64::from(MOST_IMPURITY) + 1) as u16,
    };
    [(); 3].map(|()| {
        let impurity = match rng.one_in(4) {
            true => left,
            false => rng.below(u64::from(left) + 1) as u16,
        };
        left -= impurity;
        impurity
    })
}

/// At or past its edges. Every second one has a single impurity, for the sum of several
/// passes its limit too often to show anything else.
pub fn wild(rng: &mut Random, unit: u16) -> Line {
    let most = u32::from(MOST_IMPURITY);
    let mut impurities = [0; 3];
    match rng.one_in(2) {
        true => impurities[rng.index(3)] = rng.edgy(most) as u16,
        false => impurities = [most, 2_000, 100].map(|most| rng.edgy(most) as u16),
    }
    let anodes = Anodes {
        unit,
        month: rng.edgy(u32::from(LAST_MONTH)) as u16,
        metal: rng.edgy(MOST_METAL),
        net_use: rng.edgy(MOST_USE),
        impurities,
    };
    anodes.line()
}
