//! Fuel records with a low heat value, worked by hand on fuel 1.

use super::{set_aside, sum, Sum, CARBON_MEASURED, FUEL_1, PLAIN};
use crate::draft::{unit, Burnt, FuelLine};
use crate::expectation::{Expectation, Field};

/// Low value, and CO2 in µg, CH4 and N2O in ng of 1,000 m3 under method 2.
///
/// | low     | 1.11 x low | heat in use | x 50,000,000      | x 900,000       |
/// |---------|------------|-------------|-------------------|-----------------|
/// | 1       | 1.11       | 1           | 50,000,000        | 900,000         |
/// | 35,000  | 38,850     | 38,850      | 1,942,500,000,000 | 34,965,000,000  |
/// | 35,049  | 38,904.39  | 38,904      | 1,945,200,000,000 | 35,013,600,000  |
/// | 35,050  | 38,905.5   | 38,906      | 1,945,300,000,000 | 35,015,400,000  |
/// | 35,051  | 38,906.61  | 38,907      | 1,945,350,000,000 | 35,016,300,000  |
/// | 35,150  | 39,016.5   | 39,017      | 1,950,850,000,000 | 35,115,300,000  |
/// | 180,000 | 199,800    | 199,800     | 9,990,000,000,000 | 179,820,000,000 |
const COUNTED: [(&str, u32, [u64; 3]); 7] = [
    ("low value 1", 1, [50_000_000, 900_000, 90_000]),
    (
        "low value 35,000, nothing to round",
        35_000,
        [1_942_500_000_000, 34_965_000_000, 3_496_500_000],
    ),
    (
        "low value 35,049, down",
        35_049,
        [1_945_200_000_000, 35_013_600_000, 3_501_360_000],
    ),
    (
        "low value 35,050, from a half up to an even number",
        35_050,
        [1_945_300_000_000, 35_015_400_000, 3_501_540_000],
    ),
    (
        "low value 35,051, up",
        35_051,
        [1_945_350_000_000, 35_016_300_000, 3_501_630_000],
    ),
    (
        "low value 35,150, from a half up to an odd number",
        35_150,
        [1_950_850_000_000, 35_115_300_000, 3_511_530_000],
    ),
    (
        "low value 180,000",
        180_000,
        [9_990_000_000_000, 179_820_000_000, 17_982_000_000],
    ),
];

const LOW_35_050: Burnt = Burnt {
    heat: Some(35_050),
    heat_is_low: true,
    ..PLAIN
};

const CLASS_0_GAS: FuelLine = FuelLine { class: 0, ..FUEL_1 };
const NO_DEFAULT_HEAT: FuelLine = FuelLine { heat: 0, ..FUEL_1 };

fn low(value: u32) -> Burnt {
    Burnt {
        heat: Some(value),
        ..LOW_35_050
    }
}

fn masses_under(method: u64, ledger: u64, [co2_ug, ch4_ng, n2o_ng]: [u64; 3]) -> Vec<Expectation> {
    vec![
        Field::Reason.is(0),
        Field::Method.is(method),
        Field::Ledger.is(ledger),
        Field::Co2Ug.is(co2_ug),
        Field::Ch4Ng.is(ch4_ng),
        Field::N2oNg.is(n2o_ng),
    ]
}

/// Low value 35,050 under every method: CO2 as P3 has it under method 3, none
/// under method 4, and CH4 and N2O always by the heat in use of 38,906.
fn methods() -> Vec<Sum> {
    let method_2 = masses_under(2, 1, [1_945_300_000_000, 35_015_400_000, 3_501_540_000]);
    let method_3 = masses_under(3, 1, [1_905_280_000_000, 35_015_400_000, 3_501_540_000]);
    let method_4 = masses_under(4, 0, [0, 35_015_400_000, 3_501_540_000]);
    let both = Burnt {
        carbon: CARBON_MEASURED.carbon,
        ..LOW_35_050
    };
    let without_default = |name, record, printed| Sum {
        fuel: NO_DEFAULT_HEAT,
        ..sum(name, 2_500, record, printed)
    };
    vec![
        sum(
            "low value, rating 2,501",
            2_501,
            LOW_35_050,
            method_2.clone(),
        ),
        without_default("low value, no default heat", LOW_35_050, method_2),
        sum("low value and carbon", 2_500, both, method_3.clone()),
        without_default("low value and carbon, no default heat", both, method_3),
        Sum {
            unit: unit(1, true, 2_500),
            ..sum("low value, monitored unit", 2_500, both, method_4)
        },
    ]
}

fn refused() -> Vec<Sum> {
    let no_heat = Burnt {
        heat: None,
        ..LOW_35_050
    };
    let of_class_0 = |name, rating| Sum {
        fuel: CLASS_0_GAS,
        ..sum(name, rating, LOW_35_050, set_aside(4))
    };
    vec![
        sum(
            "a low value flagged without heat",
            2_500,
            no_heat,
            set_aside(1),
        ),
        sum("low value 0", 2_500, low(0), set_aside(4)),
        sum("low value 180,001", 2_500, low(180_001), set_aside(4)),
        of_class_0("low value of a class 0 gas", 2_500),
        of_class_0("low value of a class 0 gas, rating 2,501", 2_501),
    ]
}

pub fn sums() -> impl Iterator<Item = Sum> {
    let rounded = COUNTED
        .into_iter()
        .map(|(name, value, masses)| sum(name, 2_500, low(value), masses_under(2, 1, masses)));
    rounded.chain(methods()).chain(refused())
}
