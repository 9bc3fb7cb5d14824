//! Pairs of readings, percent and flow, at a half of R and next to one. R is
//! rounded from a multiple of their product, 1,000 where there is no moisture.

use crate::bits::single;
use crate::random::Random;
use crate::specials::{FLOW_LIMIT, PERCENT_LIMIT};

/// From 3 to 999, since with 1 a half of one is met.
pub fn odd_multiple(rng: &mut Random) -> u16 {
    3 + 2 * rng.below(499) as u16
}

/// A pair of readings at a half of R, or one single away from it.
pub fn near_half(rng: &mut Random, multiple: u16) -> [u32; 2] {
    let [percent, flow] = half(rng, multiple);
    match rng.below(4) {
        0 => [percent + 1, flow],
        1 => [percent, flow - 1],
        _ => [percent, flow],
    }
}

/// Odd significands whose exponents take away one two more than the multiple
/// has make an odd number of halves: 1,000 = 8 x 125, so they add up to -4.
/// Percent stays below 2^6 and flow below 2^29.
fn half(rng: &mut Random, multiple: u16) -> [u32; 2] {
    let percent_width = 1 + rng.below(24) as i32;
    let least_places = percent_width - 6;
    let places = least_places + rng.below((29 - least_places) as u64) as i32;
    let flow_exponent = places - 1 - multiple.trailing_zeros() as i32;
    let flow_width = 1 + rng.below((29 - flow_exponent).min(24) as u64) as i32;
    let percent = single(odd(rng, percent_width), -places);
    let flow = single(odd(rng, flow_width), flow_exponent);
    [percent, flow]
}

/// An odd number of `width` bits at most.
fn odd(rng: &mut Random, width: i32) -> u32 {
    (rng.below(1 << width) | 1) as u32
}

/// Percents from 64 are multiples of 2^-17 and flows from 2^29 of 2^6, so their
/// product is one of 2^-11, and 1,000 times it one of 2^-8 that takes 54 bits
/// or more: a double would already have rounded it to the half.
pub fn large_near_half(rng: &mut Random, multiple: u16) -> [u32; 2] {
    const PERCENT_64: u32 = 0x4280_0000;
    const FLOW_2_TO_29: u32 = 0x4E00_0000;
    let twos = multiple.trailing_zeros();
    let one = 1 << (11 - twos);
    let percent = (PERCENT_64 + rng.below(u64::from(PERCENT_LIMIT - PERCENT_64)) as u32) | 1;
    let flow = FLOW_2_TO_29 + rng.below(u64::from(FLOW_LIMIT - FLOW_2_TO_29 - one + 1)) as u32;
    let odd_multiple = u32::from(multiple >> twos);
    let parts = |flow: u32| odd_multiple * (percent % one) * (flow % one) % one;
    let near_half = |&flow: &u32| [one / 2 - 1, one / 2 + 1].contains(&parts(flow));
    // An odd percent reaches every part within so many flows in a row.
    let flow = (flow..flow + one).find(near_half).unwrap_or(flow);
    [percent, flow]
}

/// A pair of readings just below or just above the product that makes R a half,
/// which none meets unless the multiple is a power of two: R is 0 with the one
/// and 1 with the other.
pub fn near_half_of_one(rng: &mut Random, multiple: u16) -> [u32; 2] {
    let [percent, flow] = below_half_of_one(rng, multiple);
    [percent, flow + rng.below(2) as u32]
}

/// A percent below 2^6 and the last flow, below 2^29, with which R is 0. Of
/// 1,000 the exponents add up to -58, and 1,000 times the significands' product
/// stays below 2^57.
fn below_half_of_one(rng: &mut Random, multiple: u16) -> [u32; 2] {
    let bits = multiple.ilog2() as i32;
    let multiple = u64::from(multiple);
    let half = 1 << (48 + bits);
    // So that the flow's significand is below 2^24.
    let least = (half >> 24) / multiple + 1;
    let significand = least + rng.below((1 << 24) - least);
    let exponent = -54 - bits + rng.below(37 + bits as u64) as i32;
    let flow_significand = half / (multiple * significand);
    let percent = single(significand as u32, exponent);
    let flow = single(flow_significand as u32, -49 - bits - exponent);
    [percent, flow]
}

#[cfg(test)]
mod tests {
    use super::*;
    use crate::draft::{hour, with_moisture};
    use second::hour::product;
    use second::quotient::Quotient;

    const TIMES: usize = 1_000;
    const MULTIPLES: [u16; 9] = [1_000, 999, 997, 998, 512, 500, 3, 2, 1];

    fn product_of(multiple: u16, [percent, flow]: [u32; 2]) -> Quotient {
        let line = with_moisture(hour(1, 1, percent, flow), 1_000 - multiple);
        product(&line).expect("the readings are in range")
    }

    #[test]
    fn halves_are_halves() {
        let mut rng = Random::new(1);
        for multiple in MULTIPLES {
            for _ in 0..TIMES {
                let pair = half(&mut rng, multiple);
                let Quotient { rest, one, .. } = product_of(multiple, pair);
                assert_eq!(2 * rest, one, "{multiple}");
            }
        }
    }

    #[test]
    fn large_products_are_a_part_away_from_a_half() {
        let mut rng = Random::new(1);
        for multiple in MULTIPLES {
            let part = 1 << multiple.trailing_zeros();
            for _ in 0..TIMES {
                let pair = large_near_half(&mut rng, multiple);
                let Quotient { rest, one, .. } = product_of(multiple, pair);
                assert_eq!(rest.abs_diff(one / 2), part, "{multiple}");
            }
        }
    }

    #[test]
    fn below_a_half_of_one_r_is_0_and_with_the_next_flow_1() {
        let mut rng = Random::new(1);
        for multiple in MULTIPLES.into_iter().filter(|one| !one.is_power_of_two()) {
            for _ in 0..TIMES {
                let [percent, flow] = below_half_of_one(&mut rng, multiple);
                let r = |flow| product_of(multiple, [percent, flow]).nearest();
                assert_eq!([r(flow), r(flow + 1)], [0, 1], "{multiple}");
            }
        }
    }
}
