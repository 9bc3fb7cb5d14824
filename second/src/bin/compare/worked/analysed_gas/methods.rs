//! Analysed gas under methods 3 and 4, by every sort of heat.

use super::{of, told, GAS, GAS_UG, HEAT_MEASURED, LOW_35_050};
use crate::draft::{dry_unit, unit, Analysed, FuelLine, Line};
use crate::worked::Sum;

/// CH4 and N2O in ng of 1,000 m3 by the default heat of 38,000, by 39,000 measured, and
/// by low values of 35,050 and 35,150, which from a half go up to 38,906 and 39,017.
const BY_DEFAULT: [u64; 2] = [34_200_000_000, 3_420_000_000];
const BY_39_000: [u64; 2] = [35_100_000_000, 3_510_000_000];
const BY_LOW_35_050: [u64; 2] = [35_015_400_000, 3_501_540_000];
const BY_LOW_35_150: [u64; 2] = [35_115_300_000, 3_511_530_000];

const LOW_35_150: Analysed = Analysed {
    heat: Some(35_150),
    ..LOW_35_050
};

/// A name, a unit, what is burnt in it, what else its fuel is, and CH4 and N2O.
type Burning = (&'static str, fn() -> Line, Analysed, Fuel, [u64; 2]);
type Fuel = fn(&mut FuelLine);

const FUEL_1: Fuel = |_| {};
const CLASS_0: Fuel = |fuel| fuel.class = 0;
const NO_DEFAULT: Fuel = |fuel| fuel.heat = 0;

const SMALL: fn() -> Line = || unit(1, false, 2_500);
const LARGE: fn() -> Line = || unit(1, false, 2_501);
const WET: fn() -> Line = || unit(1, true, 2_500);
const DRY: fn() -> Line = || dry_unit(1, 2_501);

/// Method 3 whatever the rating and the class.
const COUNTED: [Burning; 10] = [
    (
        "analysed gas, heat measured",
        SMALL,
        HEAT_MEASURED,
        FUEL_1,
        BY_39_000,
    ),
    (
        "analysed gas, low value",
        SMALL,
        LOW_35_050,
        FUEL_1,
        BY_LOW_35_050,
    ),
    (
        "analysed gas, another low value",
        SMALL,
        LOW_35_150,
        FUEL_1,
        BY_LOW_35_150,
    ),
    ("analysed gas, large unit", LARGE, GAS, FUEL_1, BY_DEFAULT),
    (
        "analysed gas, heat measured, large unit",
        LARGE,
        HEAT_MEASURED,
        FUEL_1,
        BY_39_000,
    ),
    ("analysed class 0 gas", SMALL, GAS, CLASS_0, BY_DEFAULT),
    (
        "analysed class 0 gas, large unit",
        LARGE,
        GAS,
        CLASS_0,
        BY_DEFAULT,
    ),
    (
        "analysed class 0 gas, heat, large unit",
        LARGE,
        HEAT_MEASURED,
        CLASS_0,
        BY_39_000,
    ),
    (
        "analysed gas, no default heat",
        SMALL,
        HEAT_MEASURED,
        NO_DEFAULT,
        BY_39_000,
    ),
    (
        "analysed gas, low value, no default heat",
        LARGE,
        LOW_35_050,
        NO_DEFAULT,
        BY_LOW_35_050,
    ),
];

/// Method 4, on units with a monitor.
const LEFT_TO_HOURS: [Burning; 4] = [
    ("analysed gas, wet unit", WET, GAS, FUEL_1, BY_DEFAULT),
    (
        "analysed gas, dry unit",
        DRY,
        HEAT_MEASURED,
        FUEL_1,
        BY_39_000,
    ),
    (
        "analysed gas, low value, wet unit",
        WET,
        LOW_35_050,
        FUEL_1,
        BY_LOW_35_050,
    ),
    (
        "analysed class 0 gas, dry unit",
        DRY,
        GAS,
        CLASS_0,
        BY_DEFAULT,
    ),
];

pub fn sums() -> impl Iterator<Item = Sum> {
    let counted = COUNTED.into_iter().map(|burning| sum(burning, 3, GAS_UG));
    let left = LEFT_TO_HOURS.into_iter().map(|burning| sum(burning, 4, 0));
    counted.chain(left)
}

fn sum((name, unit, gas, fuel, gases): Burning, method: u64, co2_ug: u64) -> Sum {
    let mut sum = of(name, unit(), gas, told(method, co2_ug, gases));
    fuel(&mut sum.fuel);
    sum
}
