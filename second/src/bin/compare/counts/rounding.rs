//! What was compared of the ways to round half to even: those of R, by the multiple of
//! percent x flow that it is rounded from.

use std::cmp::Ordering;

use second::hour::{moisture, product};
use second::quotient::Quotient;

use super::Rows;

#[derive(Clone, Copy, Debug, PartialEq, Eq)]
pub enum Way {
    ProductIs0,
    BelowAHalfTo0,
    AboveAHalfTo1,
    NothingToRound,
    Down,
    Up,
    HalfToEvenBelow,
    HalfToEvenAbove,
    HalfTo0,
}

pub const WAYS: [(Way, &str); 9] = [
    (Way::ProductIs0, "the product is 0"),
    (Way::BelowAHalfTo0, "below a half, to 0"),
    (Way::AboveAHalfTo1, "above a half, to 1"),
    (Way::NothingToRound, "nothing to round"),
    (Way::Down, "down"),
    (Way::Up, "up"),
    (Way::HalfToEvenBelow, "a half to the even number below"),
    (Way::HalfToEvenAbove, "a half to the even number above"),
    (Way::HalfTo0, "a half to 0"),
];

#[derive(Clone, Copy, Debug, PartialEq, Eq)]
enum Multiple {
    Thousand,
    Odd,
    OtherEven,
}

const MULTIPLES: [(Multiple, &str); 3] = [
    (Multiple::Thousand, "R,"),
    (Multiple::Odd, "R of an odd multiple,"),
    (Multiple::OtherEven, "R of another even multiple,"),
];

impl Multiple {
    fn of(line: &[u8]) -> Multiple {
        match 1_000 - moisture(line) {
            1_000 => Multiple::Thousand,
            multiple if multiple % 2 == 1 => Multiple::Odd,
            _ => Multiple::OtherEven,
        }
    }

    /// 1,000 x percent x flow is 125 times a whole number times a power of two,
    /// so the least half is 62.5.
    fn has(self, way: Way) -> bool {
        (self, way) != (Multiple::Thousand, Way::HalfTo0)
    }
}

#[derive(Default)]
pub struct RoundingCounts {
    by_way: [[u64; WAYS.len()]; MULTIPLES.len()],
}

impl RoundingCounts {
    /// Counts an hour that counts.
    pub fn count(&mut self, line: &[u8]) {
        let product = product(line).expect("the hour counts");
        self.by_way[Multiple::of(line) as usize][way(product) as usize] += 1;
    }

    pub fn table(&self) -> Vec<(&'static str, Rows)> {
        let rows = MULTIPLES.map(|(multiple, subject)| (subject, self.rows(multiple)));
        rows.to_vec()
    }

    fn rows(&self, multiple: Multiple) -> Rows {
        let by_way = self.by_way[multiple as usize];
        let ways = WAYS.into_iter().filter(|(way, _)| multiple.has(*way));
        ways.map(|(way, name)| (name.to_string(), by_way[way as usize]))
            .collect()
    }
}

pub fn way(product: Quotient) -> Way {
    let Quotient { whole, rest, one } = product;
    match (whole, (2 * rest).cmp(&one)) {
        (0, _) if rest == 0 => Way::ProductIs0,
        (_, _) if rest == 0 => Way::NothingToRound,
        (0, Ordering::Less) => Way::BelowAHalfTo0,
        (0, Ordering::Equal) => Way::HalfTo0,
        (0, Ordering::Greater) => Way::AboveAHalfTo1,
        (_, Ordering::Less) => Way::Down,
        (_, Ordering::Greater) => Way::Up,
        (_, Ordering::Equal) if whole % 2 == 0 => Way::HalfToEvenBelow,
        (_, Ordering::Equal) => Way::HalfToEvenAbove,
    }
}

#[cfg(test)]
mod tests {
    use super::*;
    use crate::draft::{hour, with_moisture};

    /// Percent, flow and moisture; after each, the product that is rounded.
    #[test]
    fn ways_are_told_from_the_hour() {
        use Multiple::{Odd, OtherEven, Thousand};
        let least = f32::from_bits(1);
        let hours = [
            (-0.0, 0.25, 0, Thousand, Way::ProductIs0),
            (least, least, 0, Thousand, Way::BelowAHalfTo0),
            (0.03125, 0.015625, 0, Thousand, Way::BelowAHalfTo0), // 0.48828125
            (0.03125, 0.03125, 0, Thousand, Way::AboveAHalfTo1),  // 0.9765625
            (0.5, 0.25, 0, Thousand, Way::NothingToRound),        // 125
            (0.125, 0.25, 0, Thousand, Way::Down),                // 31.25
            (0.375, 0.25, 0, Thousand, Way::Up),                  // 93.75
            (0.25, 0.25, 0, Thousand, Way::HalfToEvenBelow),      // 62.5
            (0.75, 0.25, 0, Thousand, Way::HalfToEvenAbove),      // 187.5
            (0.75, 0.25, 1_000, OtherEven, Way::ProductIs0),
            (0.25, 0.25, 512, OtherEven, Way::HalfToEvenBelow), // 30.5
            (0.25, 1.0, 998, OtherEven, Way::HalfTo0),          // 0.5
            (0.5, 1.0, 999, Odd, Way::HalfTo0),                 // 0.5
            (0.5, 3.0, 999, Odd, Way::HalfToEvenAbove),         // 1.5
            (0.5, 1.0, 997, Odd, Way::HalfToEvenAbove),         // 1.5
            (0.25, 1.0, 1, Odd, Way::Up),                       // 249.75
        ];
        for (percent, flow, moisture, multiple, expected) in hours {
            let wet = hour(1, 1, percent.to_bits(), flow.to_bits());
            let line = with_moisture(wet, moisture);
            let told = (Multiple::of(&line), product(&line).map(way));
            let expected = (multiple, Some(expected));
            assert_eq!(told, expected, "{percent} x {flow}, {moisture}");
        }
    }
}
