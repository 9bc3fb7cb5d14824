//! Records that come again.

use crate::draft::{put, Line, IMPURITY_PLACES, LINE, MOISTURE_PLACE};
use crate::random::Random;
use crate::repeats::{Kind, KINDS};
use crate::specials::{singles, PERCENT_LIMIT};

/// A record after one of these that a unit has once, if there is one: the same in the
/// same bytes or with something else in the others, or one that is near to it.
pub fn echo(rng: &mut Random, records: &[Line]) -> Option<Line> {
    let is_of = |line: &Line| KINDS.into_iter().any(|kind| kind.byte_0() == line[0]);
    let sources: Vec<Line> = records.iter().copied().filter(is_of).collect();
    if sources.is_empty() {
        return None;
    }
    let mut line = rng.pick(&sources);
    match rng.below(6) {
        0 => line[0] = rng.pick(&[0, 1, 2, 3, 4]),
        1 => line[rng.pick(&[2, 3, 6, 7])] ^= 1 << rng.below(8),
        2 => line[rng.pick(&[1, 4, 5, MOISTURE_PLACE, LINE - 1])] ^= 1 << rng.below(8),
        3 => put_out_of_range(rng, &mut line),
        4 => {
            let other = other_value(&line);
            put(&mut line, 12, &other.to_le_bytes());
        }
        _ => {}
    }
    Some(line)
}

fn is_hour(line: &Line) -> bool {
    line[0] == Kind::Hours.byte_0()
}

/// Mostly.
fn put_out_of_range(rng: &mut Random, line: &mut Line) {
    match is_hour(line) {
        true => put(line, 8, &rng.pick(&singles(PERCENT_LIMIT)).to_le_bytes()),
        false => {
            let place = rng.pick(&IMPURITY_PLACES);
            put(line, place, &rng.pick(&[9_999u16, 10_001]).to_le_bytes());
        }
    }
}

/// A flow of 1 scf/h, or 1 g per kg of metal.
fn other_value(line: &Line) -> u32 {
    match is_hour(line) {
        true => 0x3F80_0000,
        false => 1,
    }
}
