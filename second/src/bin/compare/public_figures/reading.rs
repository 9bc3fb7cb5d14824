//! Exact fractions as readings of a monitor.

use super::ratio::Ratio;
use crate::bits::single;

/// A single, and the whole number of 24 bits that it is rounded to.
#[derive(Clone, Copy, Debug, PartialEq, Eq)]
pub struct Reading {
    pub bits: u32,
    pub digits: u128,
}

/// The single nearest to a number from 2^-17 to 2^33, which every percent and
/// flow of the sources lies in.
pub fn nearest(number: Ratio) -> Reading {
    let digits = |exponent: i32| match exponent {
        0.. => number.per(Ratio::whole(1 << exponent)).nearest(),
        _ => number.times(Ratio::whole(1 << -exponent)).nearest(),
    };
    let fits = |exponent: &i32| digits(*exponent) < 1 << 24;
    let exponent = (-40..=10).find(fits).expect("the number is in range");
    Reading {
        bits: single(digits(exponent) as u32, exponent),
        digits: digits(exponent),
    }
}

#[cfg(test)]
mod tests {
    use super::*;
    use crate::public_figures::ratio::printed;
    use crate::specials::{FLOW_LIMIT, PERCENT_LIMIT};

    #[test]
    fn decimals_become_the_nearest_single() {
        let bits = |text| nearest(printed(text).value).bits;
        assert_eq!(bits("12.5"), 0x4148_0000);
        assert_eq!(bits("2,000,000"), 0x49F4_2400);
        assert_eq!(bits("100"), PERCENT_LIMIT);
        assert_eq!(bits("1,000,000,000"), FLOW_LIMIT);
        assert_eq!(bits("0.1"), 0x3DCC_CCCD);
        assert_eq!(bits("99.9999999"), PERCENT_LIMIT);
    }
}
