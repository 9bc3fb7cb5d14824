//! Five figures in kilograms and one decision (the requirements, "What the report
//! says").

use crate::ledger::{Ledgers, NG_PER_TONNE};
use crate::warming::Warming;

const NG_PER_KG: u128 = NG_PER_TONNE / 1_000;

#[derive(Clone, Copy, Debug, PartialEq, Eq)]
pub struct Report {
    /// kg: fossil CO2, biomass CO2, CH4, N2O, CO2e.
    pub figures: [u64; 5],
    pub must_report: bool,
}

impl Report {
    pub fn of(ledgers: &Ledgers, warming: Warming) -> Report {
        let [fossil, biomass, ch4, n2o] = ledgers.in_order();
        Report {
            figures: [fossil, biomass, ch4, n2o, co2e(ledgers, warming)].map(kilograms),
            must_report: must_report(ledgers, warming),
        }
    }
}

/// "Both CO2 ledgers + 21 x CH4 + 310 x N2O", or with the other set's values,
/// exact.
pub fn co2e(ledgers: &Ledgers, warming: Warming) -> u128 {
    ledgers.fossil + ledgers.biomass + warming.ch4 * ledgers.ch4 + warming.n2o * ledgers.n2o
}

/// "Rounded once from its own exact total, half upward."
pub fn kilograms(ng: u128) -> u64 {
    ((ng + NG_PER_KG / 2) / NG_PER_KG) as u64
}

fn must_report(ledgers: &Ledgers, warming: Warming) -> bool {
    let total = co2e(ledgers, warming);
    let subtracted = if total < 25_000 * NG_PER_TONNE {
        ledgers.biomass.min(15_000 * NG_PER_TONNE)
    } else {
        0
    };
    total - subtracted >= 10_000 * NG_PER_TONNE
}

#[cfg(test)]
mod tests {
    use super::*;

    #[test]
    fn a_half_kilogram_goes_upward() {
        assert_eq!(kilograms(499_999_999_999), 0);
        assert_eq!(kilograms(500_000_000_000), 1);
        assert_eq!(kilograms(1_499_999_999_999), 1);
        assert_eq!(kilograms(1_500_000_000_000), 2);
    }

    #[test]
    fn only_fifteen_thousand_tonnes_of_biomass_are_subtracted() {
        let ledgers = Ledgers {
            biomass: 24_999 * NG_PER_TONNE,
            ..Ledgers::default()
        };
        assert!(!must_report(&ledgers, Warming::FIRST));
        let with_fossil = |fossil| must_report(&Ledgers { fossil, ..ledgers }, Warming::FIRST);
        assert!(!with_fossil(NG_PER_TONNE - 1));
        assert!(with_fossil(NG_PER_TONNE));
    }

    /// 400 t of CH4: 8,400 t of CO2e under the first set, 10,000 t under the
    /// second. 33 t of N2O: 10,230 t and 9,834 t.
    #[test]
    fn co2e_and_decision_follow_the_set() {
        let told = |ledgers: &Ledgers| {
            let sets = [Warming::FIRST, Warming::SECOND];
            let reports = sets.map(|set| Report::of(ledgers, set));
            reports.map(|report| (report.figures[4], report.must_report))
        };
        let ch4 = Ledgers {
            ch4: 400 * NG_PER_TONNE,
            ..Ledgers::default()
        };
        assert_eq!(told(&ch4), [(8_400_000, false), (10_000_000, true)]);
        let n2o = Ledgers {
            n2o: 33 * NG_PER_TONNE,
            ..Ledgers::default()
        };
        assert_eq!(told(&n2o), [(10_230_000, true), (9_834_000, false)]);
    }
}
