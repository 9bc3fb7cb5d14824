//! What a division gives before it is rounded, and the whole number nearest to that.

/// A whole number and a rest, in parts of which `one` make one more.
#[derive(Clone, Copy, Debug, PartialEq, Eq)]
pub struct Quotient {
    pub whole: u128,
    pub rest: u128,
    pub one: u128,
}

impl Quotient {
    pub fn of(number: u128, divisor: u128) -> Quotient {
        Quotient {
            whole: number / divisor,
            rest: number % divisor,
            one: divisor,
        }
    }

    /// The whole number nearest to this, a half going to the even one.
    pub fn nearest(self) -> u64 {
        let Quotient { whole, rest, one } = self;
        let up = 2 * rest > one || (2 * rest == one && whole % 2 == 1);
        let nearest = whole + u128::from(up);
        u64::try_from(nearest).expect("what is rounded is below 2^64 within the ranges")
    }
}

#[cfg(test)]
mod tests {
    use super::*;

    #[test]
    fn halves_go_to_the_even_number() {
        let nearest = |number, divisor| Quotient::of(number, divisor).nearest();
        let halves = [(1, 0), (3, 2), (5, 2), (7, 4), (9, 4)];
        for (number, even) in halves {
            assert_eq!(nearest(number, 2), even);
        }
        assert_eq!(nearest(6, 8), 1);
        assert_eq!(nearest(4, 8), 0);
        assert_eq!(nearest(12, 8), 2);
    }
}
