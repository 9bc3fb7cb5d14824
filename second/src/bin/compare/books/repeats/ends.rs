//! Units and numbers at the ends of their ranges, each before each.

use super::held_keys;
use crate::exchange::{Exchange, Outcome};
use crate::random::Random;
use crate::repeats::{Key, Kind};

/// Unit 0 can't be listed.
const UNITS: [u16; 5] = [0, 1, 2, 65_534, 65_535];

pub fn run(exchange: &mut Exchange, rng: &mut Random, kind: Kind) -> Outcome<()> {
    let name = kind.name();
    let keys = || UNITS.into_iter().flat_map(|unit| of_unit(unit, kind));
    exchange.case(format!(
        "{name}, units and numbers at the ends of their ranges, in pairs"
    ));
    for first in keys() {
        for second in keys() {
            held_keys(exchange, rng, kind, &[first, second])?;
        }
    }
    exchange.case(format!(
        "{name}, units and numbers at the ends of their ranges, in one book"
    ));
    let once: Vec<Key> = keys().collect();
    let reversed: Vec<Key> = keys().rev().collect();
    held_keys(exchange, rng, kind, &[&once[..], &once[..]].concat())?;
    held_keys(exchange, rng, kind, &[reversed, once].concat())
}

fn of_unit(unit: u16, kind: Kind) -> [Key; 7] {
    let last = kind.last_number();
    [0, 1, 2, last - 1, last, last + 1, 65_535].map(|number| (unit, number))
}
