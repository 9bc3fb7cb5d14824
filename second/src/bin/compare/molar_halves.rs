//! Analysed gas whose CO2 lies at a half of a microgram, or as near to one as its molar
//! volume lets it.

use crate::draft::MOST_WEIGHT;

/// The greatest primes that an amount and a carbon may be, of which neither divides a
/// molar volume. 3,664 times both is about 2^58, so with a weight from 64 on the product
/// passes 64 bits.
pub const GREAT_PRIMES: [u32; 2] = [99_999_989, 999_983];

/// What the division by a molar volume leaves of multiples of one number.
pub struct Division {
    mvc: u64,
    /// Of the number itself.
    once: u64,
    /// All that is ever left is a multiple of this.
    least: u64,
}

impl Division {
    /// Of amount x carbon x 3,664, of which the molecular weight makes multiples.
    pub fn of([amount, carbon]: [u32; 2], mvc: u32) -> Division {
        let mvc = u64::from(mvc);
        let once = u64::from(amount) % mvc * (u64::from(carbon) % mvc) % mvc * 3_664 % mvc;
        Division {
            mvc,
            once,
            least: greatest_common_divisor(once, mvc),
        }
    }

    /// Three neighbours, of which the middle one is the half or what is next below it.
    /// Where so little can be left that there are no three, 0 takes their place.
    pub fn about_half(&self) -> [u64; 3] {
        let near = self.mvc / 2 / self.least * self.least;
        let below = near.saturating_sub(self.least);
        [below, near, (near + self.least) % self.mvc]
    }

    /// The least molecular weight that leaves this, a multiple of what is ever left.
    pub fn least_weight_leaving(&self, rest: u64) -> u32 {
        let modulus = self.mvc / self.least;
        let inverse = inverse(self.once / self.least, modulus);
        (rest / self.least * inverse % modulus) as u32
    }

    pub fn greatest_weight_leaving(&self, rest: u64) -> u32 {
        let modulus = (self.mvc / self.least) as u32;
        MOST_WEIGHT - (MOST_WEIGHT - self.least_weight_leaving(rest)) % modulus
    }
}

/// By which a number, of no divisor in common with the modulus, makes a multiple of it
/// and 1 more: Euclid's algorithm, each rest with what makes it of the number.
fn inverse(number: u64, modulus: u64) -> u64 {
    let modulus = modulus as i64;
    let (mut before, mut after) = ((modulus, 0), (number as i64, 1));
    while after.0 > 0 {
        let times = before.0 / after.0;
        let rest = (before.0 - times * after.0, before.1 - times * after.1);
        (before, after) = (after, rest);
    }
    before.1.rem_euclid(modulus) as u64
}

fn greatest_common_divisor(one: u64, other: u64) -> u64 {
    match other {
        0 => one,
        _ => greatest_common_divisor(other, one % other),
    }
}

#[cfg(test)]
mod tests {
    use super::*;
    use crate::draft::{LEAST_MVC, MOST_MVC};

    /// Halves there are where the molar volume is a multiple of 32, for 3,664 is 16 times
    /// an odd number.
    #[test]
    fn weights_leave_what_they_are_made_for() {
        let [amount, carbon] = GREAT_PRIMES.map(u128::from);
        for mvc in LEAST_MVC..=MOST_MVC {
            let division = Division::of(GREAT_PRIMES, mvc);
            let rests = division.about_half();
            for rest in rests {
                let weight = u128::from(division.greatest_weight_leaving(rest));
                let product = amount * carbon * weight * 3_664;
                assert!(product > u128::from(u64::MAX));
                assert_eq!(product % u128::from(mvc), u128::from(rest), "{mvc}");
            }
            let [below, near, above] = rests.map(|rest| 2 * rest);
            assert!(below < near && near <= u64::from(mvc) && u64::from(mvc) < above);
            assert_eq!(near == u64::from(mvc), mvc % 32 == 0, "{mvc}");
        }
    }

    /// Of a multiple of 24,000 nothing is left, and 3,664 times 375 leaves 6,000.
    #[test]
    fn where_little_is_left_weights_are_in_range_too() {
        for factors in [[24_000, 1], [12_000, 1], [375, 1], [24_000, 1_000_000]] {
            let division = Division::of(factors, 24_000);
            for rest in division.about_half() {
                let weight = u64::from(division.greatest_weight_leaving(rest));
                assert!((1..=200_000).contains(&weight));
                let product = factors.map(u64::from).iter().product::<u64>() * weight * 3_664;
                assert_eq!(product % 24_000, rest, "{factors:?}");
            }
        }
    }
}
