//! Records that differ in little from one before them count; both are then repeated.

use super::held_keys;
use crate::exchange::{Exchange, Outcome};
use crate::random::Random;
use crate::repeats::{Key, Kind};

const HOURS: [Key; 8] = [
    (1, 1),
    (2, 255),
    (255, 8_784),
    (256, 257),
    (257, 4_096),
    (0x1234, 256),
    (65_535, 2),
    (65_535, 8_191),
];

const ANODES: [Key; 8] = [
    (1, 1),
    (2, 12),
    (4, 7),
    (12, 8),
    (255, 10),
    (256, 2),
    (0x0304, 5),
    (65_535, 11),
];

/// How far two records of neighbouring units might lie apart in one row of them all.
const STRIDES_OF_HOURS: [u16; 11] = [
    255, 256, 4_096, 8_191, 8_192, 8_193, 8_760, 8_783, 8_784, 8_785, 8_800,
];
const STRIDES_OF_ANODES: [u16; 6] = [3, 4, 8, 10, 11, 12];

pub fn run(exchange: &mut Exchange, rng: &mut Random, kind: Kind) -> Outcome<()> {
    let (keys, in_one_row) = match kind {
        Kind::Hours => (HOURS, in_one_row(&STRIDES_OF_HOURS)),
        Kind::Anodes => (ANODES, in_one_row(&STRIDES_OF_ANODES)),
    };
    let cases = [
        ("units that differ in one bit", units_a_bit_apart(&keys)),
        ("numbers that differ in one bit", numbers_a_bit_apart(&keys)),
        ("bytes that change places", exchanged(&keys)),
        ("at one place of a row of them all", in_one_row),
        ("units and numbers of one sum", of_one_sum(kind)),
    ];
    for (name, pairs) in cases {
        exchange.case(format!("near misses, {}, {name}", kind.name()));
        for [one, other] in pairs {
            held_keys(exchange, rng, kind, &[one, other, one, other])?;
            held_keys(exchange, rng, kind, &[other, one, other, one])?;
        }
    }
    Ok(())
}

fn units_a_bit_apart(keys: &[Key]) -> Vec<[Key; 2]> {
    bits_apart(keys, |(unit, number), bit| (unit ^ bit, number))
}

fn numbers_a_bit_apart(keys: &[Key]) -> Vec<[Key; 2]> {
    bits_apart(keys, |(unit, number), bit| (unit, number ^ bit))
}

fn bits_apart(keys: &[Key], other: fn(Key, u16) -> Key) -> Vec<[Key; 2]> {
    let bits = || (0..16).map(|place| 1 << place);
    let pairs = keys
        .iter()
        .flat_map(|&key| bits().map(move |bit| [key, other(key, bit)]));
    pairs.collect()
}

/// Unit and number, or the bytes of either.
fn exchanged(keys: &[Key]) -> Vec<[Key; 2]> {
    let different = keys.iter().copied().filter(|(unit, number)| unit != number);
    let mut pairs: Vec<[Key; 2]> = different
        .map(|(one, two)| [(one, two), (two, one)])
        .collect();
    for word in [0x0100_u16, 0x0201, 0x2000, 0x1EFF] {
        pairs.push([(word, 1), (word.swap_bytes(), 1)]);
        pairs.push([(1, word), (1, word.swap_bytes())]);
    }
    pairs
}

fn in_one_row(strides: &[u16]) -> Vec<[Key; 2]> {
    let mut pairs = Vec::new();
    for stride in strides {
        for number in [0, 1, 2, 24, 8_784] {
            pairs.push([(1, number + stride), (2, number)]);
        }
    }
    pairs
}

fn of_one_sum(kind: Kind) -> Vec<[Key; 2]> {
    let last = kind.last_number();
    let mut pairs = Vec::new();
    for step in [1, 2, 3, 255, 256, 4_096].map(|step| step.min(last - 1)) {
        pairs.push([(1, last), (1 + step, last - step)]);
        pairs.push([(5_000, 1), (5_000 - step, 1 + step)]);
        pairs.push([(0x2222, last / 2), (0x2222 ^ step, (last / 2) ^ step)]);
    }
    pairs
}
