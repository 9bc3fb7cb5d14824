//! One record many times over, and records of as many units as a book may list.

use super::{held, held_keys};
use crate::draft::{unit, Line};
use crate::exchange::{Exchange, Outcome};
use crate::random::Random;
use crate::repeats::{Judged, Key, Kind, COUNTED, REPEATED};

const MOST_UNITS: u16 = 64;

/// The numbers of 64 units: the lowest, the highest, and some that differ in their
/// upper byte alone, or mostly.
const NUMBERINGS: [fn(u16) -> u16; 4] = [
    |place| 1 + place,
    |place| u16::MAX - (MOST_UNITS - 1) + place,
    |place| 256 * (1 + place),
    |place| 1_000 * (1 + place),
];

pub fn run(exchange: &mut Exchange, rng: &mut Random, kind: Kind) -> Outcome<()> {
    let name = kind.name();
    exchange.case(format!("the same {name} three times and more"));
    for times in [3, 4, 5, 9, 33, 130] {
        held_keys(exchange, rng, kind, &vec![(7, 7); times])?;
        let by_turns: Vec<Key> = (0..times as u16).map(|place| (7, 7 + place % 2)).collect();
        held_keys(exchange, rng, kind, &by_turns)?;
    }
    exchange.case(format!("{name} of 64 monitored units, each with a repeat"));
    for numbering in NUMBERINGS {
        let one_number: Vec<Key> = (0..MOST_UNITS).map(|place| (numbering(place), 1)).collect();
        let own_numbers = one_number
            .iter()
            .map(|&(unit, _)| (unit, 1 + unit % kind.last_number()));
        for keys in [one_number.clone(), own_numbers.collect()] {
            each_repeated(exchange, rng, kind, &keys)?;
        }
    }
    exchange.case(format!(
        "{name} of 64 units, every second one without a monitor, each with a repeat"
    ));
    NUMBERINGS
        .into_iter()
        .try_for_each(|numbering| every_second(exchange, rng, kind, numbering))
}

/// In the same order, from the last to the first, and each at once.
fn each_repeated(
    exchange: &mut Exchange,
    rng: &mut Random,
    kind: Kind,
    keys: &[Key],
) -> Outcome<()> {
    let reversed: Vec<Key> = keys.iter().rev().copied().collect();
    let at_once: Vec<Key> = keys.iter().flat_map(|&key| [key, key]).collect();
    held_keys(exchange, rng, kind, &[keys, keys].concat())?;
    held_keys(exchange, rng, kind, &[keys, &reversed].concat())?;
    held_keys(exchange, rng, kind, &at_once)
}

fn every_second(
    exchange: &mut Exchange,
    rng: &mut Random,
    kind: Kind,
    numbering: fn(u16) -> u16,
) -> Outcome<()> {
    let is_monitored = |place: u16| place % 2 == 1;
    let of_place = |place| unit(numbering(place), is_monitored(place), 2_500);
    let units: Vec<Line> = (0..MOST_UNITS).map(of_place).collect();
    let records = |reason| {
        (0..MOST_UNITS).map(move |place| -> Judged {
            let line = kind.record((numbering(place), 1));
            let lacks_monitor = kind == Kind::Hours && !is_monitored(place);
            (line, if lacks_monitor { 5 } else { reason })
        })
    };
    let records: Vec<Judged> = records(COUNTED).chain(records(REPEATED)).collect();
    held(exchange, rng, &units, &records)
}
