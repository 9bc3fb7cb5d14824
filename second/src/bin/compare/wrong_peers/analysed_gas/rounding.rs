//! How the CO2 of analysed gas is rounded.

use second::answer::{Answer, Frame};
use second::record::{judge, Addition};

use super::super::records::judging_ranges;
use super::{fuel_of, nearest, with_ug, Factors};
use crate::draft::ANALYSED_GAS;

/// The whole of the division, and one more where `up` holds of whole, rest and divisor.
fn rounding(frame: &Frame, up: impl Fn(u128, u128, u128) -> bool) -> Answer {
    with_ug(frame, |gas| {
        let (whole, rest) = (gas.product() / gas.mvc, gas.product() % gas.mvc);
        whole + u128::from(up(whole, rest, gas.mvc))
    })
}

pub fn rounds_halves_of_analysed_gas_upward(frame: &Frame) -> Answer {
    rounding(frame, |_, rest, mvc| 2 * rest >= mvc)
}

pub fn rounds_halves_of_analysed_gas_downward(frame: &Frame) -> Answer {
    rounding(frame, |_, rest, mvc| 2 * rest > mvc)
}

pub fn rounds_halves_of_analysed_gas_to_the_odd_number(frame: &Frame) -> Answer {
    rounding(frame, |whole, rest, mvc| {
        2 * rest > mvc || (2 * rest == mvc && whole % 2 == 0)
    })
}

pub fn never_rounds_analysed_gas_up(frame: &Frame) -> Answer {
    rounding(frame, |_, _, _| false)
}

pub fn always_rounds_analysed_gas_up(frame: &Frame) -> Answer {
    rounding(frame, |_, rest, _| rest > 0)
}

/// Of the rest and not of the whole.
pub fn asks_whether_the_rest_is_even(frame: &Frame) -> Answer {
    rounding(frame, |_, rest, mvc| {
        2 * rest > mvc || (2 * rest == mvc && rest % 2 == 1)
    })
}

/// Of the product, which is always even.
pub fn asks_whether_the_product_is_even(frame: &Frame) -> Answer {
    with_ug(frame, |gas| {
        let (whole, rest) = (gas.product() / gas.mvc, gas.product() % gas.mvc);
        let is_odd = gas.product() % 2 == 1;
        whole + u128::from(2 * rest > gas.mvc || (2 * rest == gas.mvc && is_odd))
    })
}

/// Of an odd molar volume, what is next below its half is taken for a half.
pub fn halves_an_odd_molar_volume_downward(frame: &Frame) -> Answer {
    rounding(frame, |whole, rest, mvc| {
        rest > mvc / 2 || (rest == mvc / 2 && whole % 2 == 1)
    })
}

/// And so what is next above its half goes to the even number.
pub fn halves_an_odd_molar_volume_upward(frame: &Frame) -> Answer {
    rounding(frame, |whole, rest, mvc| {
        let half = mvc.div_ceil(2);
        rest > half || (rest == half && whole % 2 == 1)
    })
}

/// In place of the half of its own molar volume.
pub fn holds_the_rest_against_half_of_24_000(frame: &Frame) -> Answer {
    rounding(frame, |whole, rest, _| {
        rest > 12_000 || (rest == 12_000 && whole % 2 == 1)
    })
}

/// As a double holds the whole, which past 2^53 is always even.
pub fn asks_the_parity_of_a_double(frame: &Frame) -> Answer {
    rounding(frame, |whole, rest, mvc| {
        let is_odd = whole as f64 % 2.0 == 1.0;
        2 * rest > mvc || (2 * rest == mvc && is_odd)
    })
}

pub fn divides_the_carbon_before_3_664(frame: &Frame) -> Answer {
    with_ug(frame, |gas| gas.product() / 3_664 / gas.mvc * 3_664)
}

pub fn rounds_carbon_by_mass_to_milligrams(frame: &Frame) -> Answer {
    with_ug(frame, |gas| 3_664 * nearest(gas.product() / 3_664, gas.mvc))
}

/// The kg of a m3 of gas in millionths, from which the rest is reckoned.
pub fn divides_the_weight_by_the_volume_first(frame: &Frame) -> Answer {
    with_ug(frame, |gas| {
        let density = nearest(gas.weight * 1_000_000, gas.mvc);
        nearest(gas.amount * gas.carbon * density * 3_664, 1_000_000)
    })
}

/// Of a wake's records of one molar volume, so that only their sum is rounded, downward.
pub fn carries_what_is_left_to_the_next_record(frame: &Frame) -> Answer {
    judging_ranges(frame, |book, range| {
        let right = second::record::judged_from(book, range.start as u32);
        let mut carried = std::collections::HashMap::new();
        let lines = book.records().skip(range.start);
        let judged = right.zip(lines).take(range.len()).map(|(judged, line)| {
            let judged = judged?;
            let mvc = fuel_of(book, line).map_or(0, |fuel| fuel.mvc);
            if line[0] != ANALYSED_GAS || judged.method != 3 {
                return Ok(judged);
            }
            let left: &mut u128 = carried.entry(mvc).or_default();
            let gas = Factors::of(line, mvc);
            let product = gas.product() + *left;
            *left = product % gas.mvc;
            Ok(Addition {
                co2_ug: (product / gas.mvc) as u64,
                ..judged
            })
        });
        judged.collect()
    })
}

/// As a fuel record of so much carbon per m3, to the nearest milligram.
pub fn makes_a_fuel_record_of_analysed_gas(frame: &Frame) -> Answer {
    super::of_gas(frame, |book, line| {
        let judged = judge(book, line)?;
        let mvc = fuel_of(book, line).map_or(1, |fuel| fuel.mvc);
        let gas = Factors::of(line, mvc);
        let per_m3 = nearest(gas.carbon * gas.weight, gas.mvc);
        Ok(match judged.method {
            3 => Addition {
                co2_ug: (gas.amount * per_m3 * 3_664) as u64,
                ..judged
            },
            _ => judged,
        })
    })
}
