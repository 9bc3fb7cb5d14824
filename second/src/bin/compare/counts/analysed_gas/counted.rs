//! What is told apart of analysed gas that counts.

use second::lines::{Monitor, NATURAL_GAS};

use super::{Gas, Row};
use crate::draft::{ANALYSED_GAS, ANODES, FUEL_RECORD, HOUR};

pub const COUNTED: [Row; 42] = [
    ("on a small unit", |gas| is_rated(gas, 1, 2_499)),
    ("at rating 2,500", |gas| is_rated(gas, 2_500, 2_500)),
    ("on a large unit", |gas| is_rated(gas, 2_501, 100_000)),
    ("of class 0 on a large unit", |gas| {
        is_rated(gas, 2_501, 100_000) && gas.is_of(|fuel| fuel.class == 0)
    }),
    ("on a wet unit", |gas| gas.is_on(Monitor::Wet)),
    ("on a dry unit", |gas| gas.is_on(Monitor::Dry)),
    ("of class 0", |gas| gas.is_of(|fuel| fuel.class == 0)),
    ("of natural gas", |gas| {
        gas.is_of(|fuel| fuel.class == NATURAL_GAS)
    }),
    ("by its default heat", |gas| gas.asked.line()[1] == 0),
    ("by measured heat", |gas| gas.has_high_heat()),
    ("by a low value", |gas| gas.has_low_heat()),
    ("by a low value on a monitored unit", |gas| {
        gas.has_low_heat() && gas.is_monitored()
    }),
    ("by a low value whose half went up", |gas| {
        gas.has_low_heat() && 111 * gas.heat() % 100 == 50
    }),
    ("by measured heat where there is no default", |gas| {
        gas.has_high_heat() && gas.is_of(|fuel| fuel.default_heat == 0)
    }),
    ("by a low value where there is no default", |gas| {
        gas.has_low_heat() && gas.is_of(|fuel| fuel.default_heat == 0)
    }),
    ("heat 1", |gas| gas.has_high_heat() && gas.heat() == 1),
    ("heat 200,000", |gas| {
        gas.has_high_heat() && gas.heat() == 200_000
    }),
    ("low value 1", |gas| gas.has_low_heat() && gas.heat() == 1),
    ("low value 180,000", |gas| {
        gas.has_low_heat() && gas.heat() == 180_000
    }),
    ("amount 0", |gas| gas.amount() == 0),
    ("amount 1", |gas| gas.amount() == 1),
    ("amount 100,000,000", |gas| gas.amount() == 100_000_000),
    ("carbon 0", |gas| gas.carbon() == 0),
    ("carbon 1", |gas| gas.carbon() == 1),
    ("carbon 1,000,000", |gas| gas.carbon() == 1_000_000),
    ("weight 1", |gas| gas.weight() == 1),
    ("weight 200,000", |gas| gas.weight() == 200_000),
    ("month 1", |gas| gas.month() == 1),
    ("month 12", |gas| gas.month() == 12),
    ("molar volume 20,000", |gas| has_volume(gas, 20_000)),
    ("molar volume 20,001", |gas| has_volume(gas, 20_001)),
    ("molar volume 26,999", |gas| has_volume(gas, 26_999)),
    ("molar volume 27,000", |gas| has_volume(gas, 27_000)),
    ("an odd molar volume, with a rest", |gas| {
        gas.is_of(|fuel| fuel.mvc % 2 == 1) && gas.co2_ug().is_some_and(|co2| co2.rest > 0)
    }),
    ("a rest next below half an odd molar volume", |gas| {
        gas.co2_ug().is_some_and(|co2| 2 * co2.rest + 1 == co2.one)
    }),
    ("a rest next above half an odd molar volume", |gas| {
        gas.co2_ug().is_some_and(|co2| 2 * co2.rest == co2.one + 1)
    }),
    ("the largest of all", |gas| {
        gas.co2_ug()
            .is_some_and(|co2| co2.whole == 3_664_000_000_000_000_000)
    }),
    ("above 2^53 µg, with a rest", |gas| {
        gas.co2_ug()
            .is_some_and(|co2| co2.whole > 1 << 53 && co2.rest > 0)
    }),
    ("after analysed gas of its unit and month", |gas| {
        gas.is_after(ANALYSED_GAS)
    }),
    ("after fuel of its unit and month", |gas| {
        gas.is_after(FUEL_RECORD)
    }),
    ("after an hour of its unit and number", |gas| {
        gas.is_after(HOUR)
    }),
    ("after anodes of its unit and month", |gas| {
        gas.is_after(ANODES)
    }),
];

/// Of units without a monitor, on which a rating might decide.
fn is_rated(gas: &Gas, least: u32, most: u32) -> bool {
    let is_it = gas
        .unit
        .is_some_and(|unit| (least..=most).contains(&unit.rating));
    is_it && gas.is_on(Monitor::None)
}

fn has_volume(gas: &Gas, mvc: u32) -> bool {
    gas.is_of(|fuel| fuel.mvc == mvc) && gas.co2_ug().is_some_and(|co2| co2.whole > 0)
}
