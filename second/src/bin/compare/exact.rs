//! Books whose four totals are any wanted numbers of micrograms or nanograms.

use crate::draft::{unit, Burnt, Draft, FuelLine, Line, FIRST_SET};

/// µg of CO2, ng of CH4 and N2O; each up to 4 x 10^18.
#[derive(Clone, Copy, Default)]
pub struct Totals {
    pub fossil_ug: u64,
    pub biomass_ug: u64,
    pub ch4_ng: u64,
    pub n2o_ng: u64,
}

pub const UG_PER_TONNE: u64 = 1_000_000_000_000;

const COARSE: u32 = 200_000;
const PLAIN_UNIT: u16 = 1;
/// Its fuel records give no CO2, so CH4 and N2O can be had alone.
const MONITORED_UNIT: u16 = 2;

pub fn book(totals: Totals) -> Draft {
    let records = [
        addends(PLAIN_UNIT, 1, totals.fossil_ug),
        addends(PLAIN_UNIT, 3, totals.biomass_ug),
        addends(MONITORED_UNIT, 5, totals.ch4_ng),
        addends(MONITORED_UNIT, 7, totals.n2o_ng),
    ];
    Draft {
        records: records.concat(),
        units: vec![
            unit(PLAIN_UNIT, false, 2_500),
            unit(MONITORED_UNIT, true, 2_500),
        ],
        fuels: fuels(),
        year: 2010,
        warming_set: FIRST_SET,
    }
}

/// Four pairs of fuels, a coarse one and a fine one for each ledger.
fn fuels() -> Vec<Line> {
    let line = |number, class, [co2, ch4, n2o]: [u32; 3]| {
        let fuel = FuelLine {
            number,
            kind: 1,
            class,
            heat: 0,
            co2,
            ch4,
            n2o,
            mvc: 0,
        };
        fuel.line()
    };
    vec![
        line(1, 0, [COARSE, 0, 0]),
        line(2, 0, [1, 0, 0]),
        line(3, 3, [COARSE, 0, 0]),
        line(4, 3, [1, 0, 0]),
        line(5, 0, [1, COARSE, 0]),
        line(6, 0, [1, 1, 0]),
        line(7, 0, [1, 0, COARSE]),
        line(8, 0, [1, 0, 1]),
    ]
}

/// Records that add up to `total`: coarse fuel of great heat, coarse fuel of
/// heat 1, and fine fuel for the rest.
fn addends(unit: u16, coarse_fuel: u16, total: u64) -> Vec<Line> {
    let coarse = u64::from(COARSE);
    let (quotient, rest) = (total / coarse, total % coarse);
    let parts = [
        (coarse_fuel, quotient / coarse, COARSE),
        (coarse_fuel, quotient % coarse, 1),
        (coarse_fuel + 1, rest, 1),
    ];
    let needed = parts.iter().filter(|(_, amount, _)| *amount > 0);
    let records = needed.map(|&(fuel, amount, heat)| Burnt {
        unit,
        fuel,
        month: 12,
        amount: amount as u32,
        heat: Some(heat),
        heat_is_low: false,
        carbon: None,
    });
    records.map(|record| record.line()).collect()
}
