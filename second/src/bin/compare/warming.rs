//! Totals at a threshold that the two sets of warming values decide apart, and
//! their neighbours, each worked by hand in whole nanograms.

use crate::exact::{Totals, UG_PER_TONNE};
use crate::expectation::{self, Expectation};

pub struct Edge {
    pub name: &'static str,
    pub totals: Totals,
    /// Under the first set and under the second.
    told: [Told; 2],
}

/// The exact CO2e in ng, and whether the site must report.
type Told = (u128, bool);

const NEED_NOT: bool = false;
const MUST: bool = true;

const UG: u64 = UG_PER_TONNE;
const NG: u64 = 1_000 * UG_PER_TONNE;
const TONNE: u128 = NG as u128;

const fn edge(
    name: &'static str,
    [fossil_ug, biomass_ug, ch4_ng, n2o_ng]: [u64; 4],
    told: [Told; 2],
) -> Edge {
    let totals = Totals {
        fossil_ug,
        biomass_ug,
        ch4_ng,
        n2o_ng,
    };
    Edge { name, totals, told }
}

/// "A nanogram below" under the second set: 155 ng of CH4 less are 3,875 ng,
/// 13 ng of N2O more 3,874 ng; under the first 3,255 ng and 4,030 ng. Under
/// the first set: 4 ng of N2O less are 1,240 ng, 59 ng of CH4 more 1,239 ng;
/// under the second 1,192 ng and 1,475 ng.
///
/// "4 ng apart", which is as near as the sets come to each other: 226 ng of
/// CH4 and 75 ng of N2O are 27,996 ng under the first set and 28,000 ng under
/// the second, 530 ng and 177 ng are 66,000 ng and 65,996 ng.
///
/// With 15,000 t of biomass or more, T below 25,000 t is below 10,000 t once
/// 15,000 t are subtracted, and T of 25,000 t is not.
pub const EDGES: [Edge; 14] = [
    edge(
        "400 t of CH4: 10,000 t under the second set alone",
        [0, 0, 400 * NG, 0],
        [(8_400 * TONNE, NEED_NOT), (10_000 * TONNE, MUST)],
    ),
    edge(
        "a nanogram below 10,000 t under the second set",
        [0, 0, 400 * NG - 155, 13],
        [
            (8_400 * TONNE + 775, NEED_NOT),
            (10_000 * TONNE - 1, NEED_NOT),
        ],
    ),
    edge(
        "30 t of N2O: 10,000 t under the first set alone",
        [700 * UG, 0, 0, 30 * NG],
        [(10_000 * TONNE, MUST), (9_640 * TONNE, NEED_NOT)],
    ),
    edge(
        "a nanogram below 10,000 t under the first set",
        [700 * UG, 0, 59, 30 * NG - 4],
        [
            (10_000 * TONNE - 1, NEED_NOT),
            (9_640 * TONNE + 283, NEED_NOT),
        ],
    ),
    edge(
        "4 ng apart: 10,000 t under the second set alone",
        [10_000 * UG - 28, 0, 226, 75],
        [(10_000 * TONNE - 4, NEED_NOT), (10_000 * TONNE, MUST)],
    ),
    edge(
        "4 ng apart: 10,000 t under the first set alone",
        [10_000 * UG - 66, 0, 530, 177],
        [(10_000 * TONNE, MUST), (10_000 * TONNE - 4, NEED_NOT)],
    ),
    edge(
        "4 ng apart: 10,000 t without biomass under the second set alone",
        [10_000 * UG - 28, 5_000 * UG, 226, 75],
        [(15_000 * TONNE - 4, NEED_NOT), (15_000 * TONNE, MUST)],
    ),
    edge(
        "4 ng apart: 10,000 t without biomass under the first set alone",
        [10_000 * UG - 66, 5_000 * UG, 530, 177],
        [(15_000 * TONNE, MUST), (15_000 * TONNE - 4, NEED_NOT)],
    ),
    edge(
        "360 t of CH4: 25,000 t under the second set alone",
        [0, 16_000 * UG, 360 * NG, 0],
        [(23_560 * TONNE, NEED_NOT), (25_000 * TONNE, MUST)],
    ),
    edge(
        "a nanogram below 25,000 t under the second set",
        [0, 16_000 * UG, 360 * NG - 155, 13],
        [
            (23_560 * TONNE + 775, NEED_NOT),
            (25_000 * TONNE - 1, NEED_NOT),
        ],
    ),
    edge(
        "20 t of N2O: 25,000 t under the first set alone",
        [2_800 * UG, 16_000 * UG, 0, 20 * NG],
        [(25_000 * TONNE, MUST), (24_760 * TONNE, NEED_NOT)],
    ),
    edge(
        "a nanogram below 25,000 t under the first set",
        [2_800 * UG, 16_000 * UG, 59, 20 * NG - 4],
        [
            (25_000 * TONNE - 1, NEED_NOT),
            (24_760 * TONNE + 283, NEED_NOT),
        ],
    ),
    edge(
        "4 ng apart: 25,000 t under the second set alone",
        [10_000 * UG - 28, 15_000 * UG, 226, 75],
        [(25_000 * TONNE - 4, NEED_NOT), (25_000 * TONNE, MUST)],
    ),
    edge(
        "4 ng apart: 25,000 t under the first set alone",
        [10_000 * UG - 66, 15_000 * UG, 530, 177],
        [(25_000 * TONNE, MUST), (25_000 * TONNE - 4, NEED_NOT)],
    ),
];

impl Edge {
    /// The report under a set; its masses are those of either set.
    pub fn report(&self, set: u8) -> Vec<Expectation> {
        let Totals {
            fossil_ug,
            biomass_ug,
            ch4_ng,
            n2o_ng,
        } = self.totals;
        let (co2e_ng, must_report) = self.told[usize::from(set)];
        let co2_ng = [fossil_ug, biomass_ug].map(|ug| 1_000 * u128::from(ug));
        let gases_ng = [ch4_ng, n2o_ng].map(u128::from);
        let [fossil, biomass] = co2_ng.map(nearest_kilogram);
        let [ch4, n2o] = gases_ng.map(nearest_kilogram);
        let co2e = nearest_kilogram(co2e_ng);
        expectation::report([fossil, biomass, ch4, n2o, co2e], must_report)
    }
}

/// No edge lies near a half of a kilogram.
fn nearest_kilogram(ng: u128) -> u64 {
    ((ng + TONNE / 2_000) / (TONNE / 1_000)) as u64
}

#[cfg(test)]
mod tests {
    use super::*;

    #[test]
    fn every_edge_adds_up_to_its_co2e() {
        for Edge { name, totals, told } in EDGES {
            let co2 = 1_000 * (u128::from(totals.fossil_ug) + u128::from(totals.biomass_ug));
            let [ch4, n2o] = [totals.ch4_ng, totals.n2o_ng].map(u128::from);
            assert_eq!(co2 + 21 * ch4 + 310 * n2o, told[0].0, "{name}");
            assert_eq!(co2 + 25 * ch4 + 298 * n2o, told[1].0, "{name}");
        }
    }
}
