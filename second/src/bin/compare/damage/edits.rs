//! Ways to change bytes: one after the other, and several at once.

use std::ops::Range;

use crate::draft::LINE;
use crate::exchange::Outcome;
use crate::random::Random;

pub type Edit = fn(&mut Random, &mut [u8]);

/// Each of these bytes with every value.
pub fn single_bytes(
    original: &[u8],
    places: Range<usize>,
    mut with: impl FnMut(&[u8]) -> Outcome<()>,
) -> Outcome<()> {
    let mut bytes = original.to_vec();
    for place in places {
        for value in 0..=255 {
            bytes[place] = value;
            with(&bytes)?;
        }
        bytes[place] = original[place];
    }
    Ok(())
}

/// Two to six bytes become anything.
pub fn damage(rng: &mut Random, bytes: &mut [u8]) {
    for _ in 0..2 + rng.below(5) {
        let place = rng.index(bytes.len());
        bytes[place] = match rng.below(3) {
            0 => bytes[place] ^ 1 << rng.below(8),
            1 => rng.pick(&[0, 1, 2, 0x7F, 0x80, 0xFF]),
            _ => rng.byte(),
        };
    }
}

/// One to three bytes that are not 0 move by one or to a smaller value:
/// numbers in use change a little and zeros that are prescribed stay.
pub fn nudge(rng: &mut Random, bytes: &mut [u8]) {
    let in_use: Vec<usize> = (0..bytes.len())
        .filter(|&place| bytes[place] != 0)
        .collect();
    if in_use.is_empty() {
        return;
    }
    for _ in 0..1 + rng.below(3) {
        let place = rng.pick(&in_use);
        let byte = bytes[place];
        bytes[place] = match rng.below(3) {
            0 => byte.wrapping_add(1),
            1 => byte.wrapping_sub(1),
            _ => rng.below(1 + u64::from(byte)) as u8,
        };
    }
}

/// One to three times, one line overwrites another or two change places.
pub fn move_lines(rng: &mut Random, bytes: &mut [u8]) {
    let lines = bytes.len() / LINE;
    for _ in 0..1 + rng.below(3) {
        let (one, other) = (LINE * rng.index(lines), LINE * rng.index(lines));
        if rng.one_in(2) {
            bytes.copy_within(one..one + LINE, other);
        } else {
            (0..LINE).for_each(|byte| bytes.swap(one + byte, other + byte));
        }
    }
}
