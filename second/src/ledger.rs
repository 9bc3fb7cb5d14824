//! The four ledgers, each one exact number of nanograms.

use crate::record::{Addition, Co2Ledger};

/// "Whole tonnes and a rest in ng below 10^15."
pub const NG_PER_TONNE: u128 = 1_000_000_000_000_000;
const NG_PER_UG: u128 = 1_000;

#[derive(Clone, Copy, Debug, Default, PartialEq, Eq)]
pub struct Ledgers {
    pub fossil: u128,
    pub biomass: u128,
    pub ch4: u128,
    pub n2o: u128,
}

impl Ledgers {
    pub fn add(&mut self, addition: &Addition) {
        let co2 = u128::from(addition.co2_ug) * NG_PER_UG;
        match addition.ledger {
            Co2Ledger::Fossil => self.fossil += co2,
            Co2Ledger::Biomass => self.biomass += co2,
            Co2Ledger::None => {}
        }
        self.ch4 += u128::from(addition.ch4_ng);
        self.n2o += u128::from(addition.n2o_ng);
    }

    /// In the order in which a checkpoint holds them.
    pub fn in_order(&self) -> [u128; 4] {
        [self.fossil, self.biomass, self.ch4, self.n2o]
    }

    pub fn from_order([fossil, biomass, ch4, n2o]: [u128; 4]) -> Ledgers {
        Ledgers {
            fossil,
            biomass,
            ch4,
            n2o,
        }
    }
}
