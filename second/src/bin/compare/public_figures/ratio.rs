//! Printed decimals and exact fractions, for conversions of units.

/// A fraction in lowest terms.
#[derive(Clone, Copy, Debug, PartialEq, Eq)]
pub struct Ratio {
    over: u128,
    under: u128,
}

/// A number as a source prints it: "2,597.94" has the digits 259794.
#[derive(Clone, Copy, Debug, PartialEq, Eq)]
pub struct Printed {
    pub digits: u128,
    pub value: Ratio,
}

pub fn printed(text: &str) -> Printed {
    let places = text.split_once('.').map_or(0, |(_, after)| after.len());
    let digits = text.chars().filter_map(|letter| letter.to_digit(10));
    let digits = digits.fold(0, |number, digit| 10 * number + u128::from(digit));
    Printed {
        digits,
        value: Ratio::new(digits, 10u128.pow(places as u32)),
    }
}

impl Ratio {
    pub fn new(over: u128, under: u128) -> Ratio {
        let common = greatest_common_divisor(over, under);
        Ratio {
            over: over / common,
            under: under / common,
        }
    }

    pub fn whole(number: u128) -> Ratio {
        Ratio::new(number, 1)
    }

    pub fn times(self, other: Ratio) -> Ratio {
        let (one, two) = (
            Ratio::new(self.over, other.under),
            Ratio::new(other.over, self.under),
        );
        Ratio::new(one.over * two.over, one.under * two.under)
    }

    pub fn per(self, other: Ratio) -> Ratio {
        self.times(Ratio::new(other.under, other.over))
    }

    pub fn plus(self, other: Ratio) -> Ratio {
        let under = self.under * other.under;
        Ratio::new(self.over * other.under + other.over * self.under, under)
    }

    /// Less `other`, which is not more.
    pub fn minus(self, other: Ratio) -> Ratio {
        let under = self.under * other.under;
        Ratio::new(self.over * other.under - other.over * self.under, under)
    }

    pub fn nearest(self) -> u128 {
        (2 * self.over + self.under) / (2 * self.under)
    }
}

fn greatest_common_divisor(one: u128, other: u128) -> u128 {
    match other {
        0 => one,
        _ => greatest_common_divisor(other, one % other),
    }
}

#[cfg(test)]
mod tests {
    use super::*;

    #[test]
    fn printed_numbers_are_exact() {
        let number = printed("2,597.94");
        assert_eq!(number.digits, 259_794);
        assert_eq!(number.value, Ratio::new(129_897, 50));
        assert_eq!(number.value.nearest(), 2_598);
        let product = printed("0.25").value.times(printed("10").value);
        assert_eq!(product.nearest(), 3);
        assert_eq!(product.per(Ratio::whole(5)), Ratio::new(1, 2));
        assert_eq!(product.minus(Ratio::new(1, 3)), Ratio::new(13, 6));
        assert_eq!(product.plus(Ratio::new(1, 3)), Ratio::new(17, 6));
    }
}
