//! What the CO2 of anodes is.

use second::answer::{Answer, Frame};
use second::bytes::u32_at;
use second::record::{judge, Addition};

use super::{grams, impurities, of_anodes};

/// Anodes that count, with another CO2.
fn with_ug(frame: &Frame, wrong: impl Fn(&[u8]) -> u64) -> Answer {
    of_anodes(frame, |book, line| {
        let judged = judge(book, line)?;
        Ok(Addition {
            co2_ug: wrong(line),
            ..judged
        })
    })
}

/// With other ten-thousandths of a gram of carbon.
fn with_carbon(frame: &Frame, wrong: impl Fn([u64; 3]) -> u64) -> Answer {
    with_ug(frame, |line| {
        nearest_tenth(3_664 * grams(line) * wrong(impurities(line)))
    })
}

fn nearest_tenth(tenths: u64) -> u64 {
    (tenths + 5) / 10
}

fn carbon(line: &[u8]) -> u64 {
    10_000 - impurities(line).iter().sum::<u64>()
}

fn tenths(line: &[u8]) -> u64 {
    3_664 * grams(line) * carbon(line)
}

pub fn turns_carbon_of_anodes_into_co2_by_44_over_12(frame: &Frame) -> Answer {
    with_ug(frame, |line| (1_100 * grams(line) * carbon(line) + 1) / 3)
}

/// As 44/12 is often rounded.
pub fn turns_carbon_of_anodes_into_co2_by_3_667(frame: &Frame) -> Answer {
    with_ug(frame, |line| {
        nearest_tenth(3_667 * grams(line) * carbon(line))
    })
}

pub fn multiplies_the_impurities_as_parts(frame: &Frame) -> Answer {
    with_carbon(frame, |impurities| {
        let parts = impurities.map(|impurity| 10_000 - impurity);
        parts.iter().product::<u64>() / 100_000_000
    })
}

pub fn forgets_the_sulphur(frame: &Frame) -> Answer {
    with_carbon(frame, |[_, ash, others]| 10_000 - ash - others)
}

pub fn forgets_the_ash(frame: &Frame) -> Answer {
    with_carbon(frame, |[sulphur, _, others]| 10_000 - sulphur - others)
}

pub fn forgets_the_other_impurities(frame: &Frame) -> Answer {
    with_carbon(frame, |[sulphur, ash, _]| 10_000 - sulphur - ash)
}

pub fn takes_anodes_for_pure_carbon(frame: &Frame) -> Answer {
    with_carbon(frame, |_| 10_000)
}

pub fn takes_the_impurities_for_the_carbon(frame: &Frame) -> Answer {
    with_carbon(frame, |impurities| impurities.iter().sum())
}

/// Instead of hundredths, so they are ten times as much, to the whole at most.
pub fn takes_hundredths_of_a_percent_for_tenths(frame: &Frame) -> Answer {
    with_carbon(frame, |impurities| {
        10_000 - (10 * impurities.iter().sum::<u64>()).min(10_000)
    })
}

pub fn never_rounds_anodes_up(frame: &Frame) -> Answer {
    with_ug(frame, |line| tenths(line) / 10)
}

pub fn always_rounds_anodes_up(frame: &Frame) -> Answer {
    with_ug(frame, |line| tenths(line).div_ceil(10))
}

/// That is, tells tenths of a microgram as micrograms.
pub fn forgets_to_divide_by_10(frame: &Frame) -> Answer {
    with_ug(frame, tenths)
}

pub fn divides_by_10_before_3_664(frame: &Frame) -> Answer {
    with_ug(frame, |line| 3_664 * (grams(line) * carbon(line) / 10))
}

pub fn rounds_the_carbon_to_milligrams(frame: &Frame) -> Answer {
    with_ug(frame, |line| {
        3_664 * nearest_tenth(grams(line) * carbon(line))
    })
}

/// 10^8 kg by 1,000 g passes them.
pub fn takes_metal_by_use_in_32_bits(frame: &Frame) -> Answer {
    with_ug(frame, |line| {
        let grams = u32_at(line, 8).wrapping_mul(u32_at(line, 12));
        nearest_tenth(3_664 * u64::from(grams) * carbon(line))
    })
}

pub fn takes_anodes_in_double_precision(frame: &Frame) -> Answer {
    with_ug(frame, |line| {
        let carbon = grams(line) as f64 * (carbon(line) as f64 / 10_000.0);
        (carbon * 3.664 * 1_000_000.0).round_ties_even() as u64
    })
}
