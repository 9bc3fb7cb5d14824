//! What sets analysed gas aside.

use second::lines::{Fuel, GAS, LIQUID, NATURAL_GAS, SOLID};

use super::{Gas, Row};
use crate::draft::{put, CARBON_PLACE, HEAT_IS_LOW, NUMBER_PLACE, WEIGHT_PLACE};

pub const SET_ASIDE: [Row; 37] = [
    ("1 before 2", |gas| gas.reason() == 1 && gas.unit.is_none()),
    ("1 before 3", |gas| gas.reason() == 1 && gas.fuel.is_none()),
    ("1 before 4, weight 0", |gas| {
        gas.reason() == 1 && gas.weight() == 0
    }),
    ("1 before 4, no molar volume", |gas| {
        gas.reason() == 1 && gas.is_of(|fuel| fuel.mvc == 0)
    }),
    ("2", |gas| gas.is_for(2, |line| put(line, 2, &[1, 0]))),
    ("2 before 3", |gas| gas.reason() == 2 && gas.fuel.is_none()),
    ("2 before 4, weight 0", |gas| {
        gas.reason() == 2 && gas.weight() == 0
    }),
    ("3", |gas| gas.is_for(3, |line| put(line, 4, &[1, 0]))),
    ("3 before 4, weight 0", |gas| {
        gas.reason() == 3 && gas.weight() == 0
    }),
    ("4, month 0", |gas| is_for_month(gas, 0)),
    ("4, month 13", |gas| is_for_month(gas, 13)),
    ("4, month 257, whose lower byte is one", |gas| {
        is_for_month(gas, 257)
    }),
    ("4, month 65,535", |gas| is_for_month(gas, u16::MAX)),
    ("4, amount 100,000,001", |gas| {
        gas.amount() == 100_000_001 && gas.is_for_field(4, 8)
    }),
    ("4, amount 4,294,967,295", |gas| {
        gas.amount() == u32::MAX && gas.is_for_field(4, 8)
    }),
    ("4, heat 0", |gas| is_for_heat(gas, 0)),
    ("4, heat 200,001", |gas| is_for_heat(gas, 200_001)),
    ("4, low value 0", |gas| is_for_low_heat(gas, 0)),
    ("4, low value 180,001", |gas| is_for_low_heat(gas, 180_001)),
    ("4, a low value of class 0", |gas| {
        gas.has_low_heat()
            && gas.is_of(|fuel| fuel.class != NATURAL_GAS)
            && gas.is_for(4, |line| line[1] &= !HEAT_IS_LOW)
    }),
    ("4, carbon 1,000,001", |gas| {
        gas.carbon() == 1_000_001 && gas.is_for_field(4, CARBON_PLACE)
    }),
    ("4, carbon 4,000,000", |gas| {
        gas.carbon() == 4_000_000 && gas.is_for_field(4, CARBON_PLACE)
    }),
    ("4, carbon 4,294,967,295", |gas| {
        gas.carbon() == u32::MAX && gas.is_for_field(4, CARBON_PLACE)
    }),
    ("4, weight 0", |gas| {
        gas.weight() == 0 && gas.is_for_field(4, WEIGHT_PLACE)
    }),
    ("4, weight 200,001", |gas| {
        gas.weight() == 200_001 && gas.is_for_field(4, WEIGHT_PLACE)
    }),
    ("4, weight 4,294,967,295", |gas| {
        gas.weight() == u32::MAX && gas.is_for_field(4, WEIGHT_PLACE)
    }),
    ("4, a gas without a molar volume", |gas| {
        is_for_fuel(gas, |fuel| fuel.kind == GAS && fuel.mvc == 0)
    }),
    ("4, no molar volume, monitored unit", |gas| {
        gas.is_monitored() && is_for_fuel(gas, |fuel| fuel.kind == GAS && fuel.mvc == 0)
    }),
    ("4, a liquid with a molar volume", |gas| {
        is_for_fuel(gas, |fuel| fuel.kind == LIQUID && fuel.mvc > 0)
    }),
    ("4, a solid with a molar volume", |gas| {
        is_for_fuel(gas, |fuel| fuel.kind == SOLID && fuel.mvc > 0)
    }),
    ("4, a solid or liquid without one", |gas| {
        is_for_fuel(gas, |fuel| fuel.kind != GAS && fuel.mvc == 0)
    }),
    ("4, no gas, monitored unit", |gas| {
        gas.is_monitored() && is_for_fuel(gas, |fuel| fuel.kind != GAS && fuel.mvc > 0)
    }),
    ("4 before 7, no molar volume", |gas| {
        is_before_7(gas) && gas.is_of(|fuel| fuel.mvc == 0)
    }),
    ("4 before 7, weight 0", |gas| {
        is_before_7(gas) && gas.weight() == 0
    }),
    ("7", |gas| gas.is_for_its_fuel(7)),
    ("7 on a large unit", |gas| {
        gas.unit.is_some_and(|unit| unit.rating > 2_500) && gas.is_for_its_fuel(7)
    }),
    ("7 on a monitored unit", |gas| {
        gas.is_monitored() && gas.is_for_its_fuel(7)
    }),
];

fn is_for_month(gas: &Gas, month: u16) -> bool {
    gas.month() == month && gas.is_for(4, |line| put(line, NUMBER_PLACE, &[1, 0]))
}

fn is_for_heat(gas: &Gas, heat: u32) -> bool {
    gas.has_high_heat() && gas.heat() == heat && gas.is_for_field(4, 12)
}

fn is_for_low_heat(gas: &Gas, heat: u32) -> bool {
    gas.has_low_heat() && gas.heat() == heat && gas.is_for_field(4, 12)
}

fn is_for_fuel(gas: &Gas, is_so: impl Fn(&Fuel) -> bool) -> bool {
    gas.is_of(is_so) && gas.is_for_its_fuel(4)
}

/// Nothing is measured of its heat, and there is no default.
fn is_before_7(gas: &Gas) -> bool {
    let has_none = gas.asked.line()[1] == 0 && gas.is_of(|fuel| fuel.default_heat == 0);
    gas.reason() == 4 && has_none
}
