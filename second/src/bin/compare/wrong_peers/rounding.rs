//! Programs that are wrong about R.

use second::answer::{Answer, Frame};
use second::bytes::u32_at;
use second::hour::{moisture, product};
use second::quotient::Quotient;
use second::record::{judge, Addition};

use super::records::judging;
use crate::draft::HOUR;

/// Hours with a wrong R of the readings in their line.
fn with_r(frame: &Frame, wrong: impl Fn(&[u8]) -> u64) -> Answer {
    judging(frame, |book, line| {
        let judged = judge(book, line)?;
        match line[0] {
            HOUR => Ok(Addition {
                co2_ug: 518 * wrong(line),
                ..judged
            }),
            _ => Ok(judged),
        }
    })
}

/// R reckoned in floating point from the multiple, percent and flow.
fn floating(frame: &Frame, wrong: impl Fn(f64, f32, f32) -> f64) -> Answer {
    with_r(frame, |line| {
        let multiple = f64::from(1_000 - moisture(line));
        let single = |place: usize| f32::from_bits(u32_at(line, place));
        wrong(multiple, single(8), single(12)).round_ties_even() as u64
    })
}

pub fn multiplies_in_single_precision(frame: &Frame) -> Answer {
    floating(frame, |multiple, percent, flow| {
        multiple * f64::from(percent * flow)
    })
}

/// The product of the readings is exact in a double, a multiple of it not.
pub fn takes_the_multiple_in_double_precision(frame: &Frame) -> Answer {
    floating(frame, |multiple, percent, flow| {
        multiple * (f64::from(percent) * f64::from(flow))
    })
}

/// R rounded from the exact product: the whole, and one more where `up` holds.
fn rounding(frame: &Frame, up: impl Fn(Quotient) -> bool) -> Answer {
    with_r(frame, |line| {
        let product = product(line).expect("the hour counts");
        let r = product.whole + u128::from(up(product));
        u64::try_from(r).expect("R is at most 10^14 within the ranges")
    })
}

pub fn rounds_halves_of_r_upward(frame: &Frame) -> Answer {
    rounding(frame, |product| 2 * product.rest >= product.one)
}

/// So does a program that asks whether the rest is even and not the whole: the
/// exponents of two readings add up to -11 at most, so at a half the rest is a
/// multiple of 1,024.
pub fn rounds_halves_of_r_downward(frame: &Frame) -> Answer {
    rounding(frame, |product| 2 * product.rest > product.one)
}

pub fn rounds_halves_of_r_to_the_odd_number(frame: &Frame) -> Answer {
    rounding(frame, |Quotient { whole, rest, one }| {
        2 * rest > one || (2 * rest == one && whole % 2 == 0)
    })
}

pub fn never_rounds_r_up(frame: &Frame) -> Answer {
    rounding(frame, |_| false)
}

/// That is, gives 0 wherever nothing is whole.
pub fn never_rounds_r_up_to_1(frame: &Frame) -> Answer {
    rounding(frame, |Quotient { whole, rest, one }| {
        whole > 0 && (2 * rest > one || (2 * rest == one && whole % 2 == 1))
    })
}

/// Instead of half of the divisor.
pub fn holds_the_rest_of_r_against_half_of_1_000(frame: &Frame) -> Answer {
    rounding(frame, |Quotient { whole, rest, .. }| {
        2 * rest > 1_000 || (2 * rest == 1_000 && whole % 2 == 1)
    })
}
