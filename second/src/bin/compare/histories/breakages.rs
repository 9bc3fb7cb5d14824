//! The rules of soundness of a checkpoint, each broken alone.

use second::bytes::{u16_at, u32_at};

use super::made_up::{LEDGERS, NG_PER_TONNE, TONNES_PER_RECORD};
use crate::draft::{put, LINE};
use crate::random::Random;

/// Breaks one rule in a sound checkpoint of a book of so many records, which
/// are one at least.
pub type Breaking = fn(&mut Random, &mut [u8], u32);

fn put_word(checkpoint: &mut [u8], place: usize, value: u32) {
    put(checkpoint, place, &value.to_le_bytes());
}

/// All records done, one set aside: the first, for reason 4.
fn set_one_aside(checkpoint: &mut [u8], count: u32) {
    put_word(checkpoint, 0, count);
    put_word(checkpoint, 4, 1);
    put_word(checkpoint, 8, 0);
    checkpoint[12] = 4;
}

fn set_none_aside(checkpoint: &mut [u8]) {
    checkpoint[4..13].fill(0);
}

pub const BREAKAGES: [(&str, Breaking); 14] = [
    ("book length one more or less", |rng, checkpoint, _| {
        let length = u32_at(checkpoint, 80);
        let wrong = rng.pick(&[length - 1, length + 1, length + LINE as u32, 0]);
        put_word(checkpoint, 80, wrong);
    }),
    ("year one more or less", |rng, checkpoint, _| {
        let year = u16_at(checkpoint, 84);
        let wrong = rng.pick(&[year - 1, year + 1, 0]);
        put(checkpoint, 84, &wrong.to_le_bytes());
    }),
    ("done one more than n", |rng, checkpoint, count| {
        let wrong = rng.pick(&[count + 1, u32::MAX]);
        put_word(checkpoint, 0, wrong);
    }),
    ("set aside one more than done", |rng, checkpoint, count| {
        set_one_aside(checkpoint, count);
        let wrong = rng.pick(&[count + 1, u32::MAX]);
        put_word(checkpoint, 4, wrong);
    }),
    ("first index equal to done", |rng, checkpoint, count| {
        set_one_aside(checkpoint, count);
        let wrong = rng.pick(&[count, count + 1, u32::MAX]);
        put_word(checkpoint, 8, wrong);
    }),
    ("set aside, but reason 0", |_, checkpoint, count| {
        set_one_aside(checkpoint, count);
        checkpoint[12] = 0;
    }),
    ("reason 9 or more", |rng, checkpoint, count| {
        set_one_aside(checkpoint, count);
        checkpoint[12] = rng.pick(&[9, 10, 255]);
    }),
    ("none set aside, but an index", |_, checkpoint, count| {
        put_word(checkpoint, 0, count);
        set_none_aside(checkpoint);
        put_word(checkpoint, 8, count - 1);
        checkpoint[8] |= u8::from(count == 1);
    }),
    ("none set aside, but a reason", |rng, checkpoint, _| {
        set_none_aside(checkpoint);
        checkpoint[12] = 1 + rng.below(8) as u8;
    }),
    ("a rest of 10^15 ng", |rng, checkpoint, _| {
        let place = rng.pick(&LEDGERS) + 8;
        let wrong = rng.pick(&[NG_PER_TONNE, NG_PER_TONNE + 1, u64::MAX]);
        put(checkpoint, place, &wrong.to_le_bytes());
    }),
    (
        "a tonne more than 4,000,000 x done",
        |rng, checkpoint, _| {
            let most = TONNES_PER_RECORD * u64::from(u32_at(checkpoint, 0));
            let place = rng.pick(&LEDGERS);
            let wrong = rng.pick(&[most + 1, u64::MAX]);
            put(checkpoint, place, &wrong.to_le_bytes());
        },
    ),
    ("bytes 13 to 15 not 0", |rng, checkpoint, _| {
        checkpoint[13 + rng.index(3)] = 1 << rng.below(8);
    }),
    ("bytes 86 to 95 not 0", |rng, checkpoint, _| {
        checkpoint[86 + rng.index(10)] = 1 << rng.below(8);
    }),
    ("nothing done, but a tonne", |rng, checkpoint, _| {
        checkpoint[..80].fill(0);
        checkpoint[rng.pick(&LEDGERS)] = 1;
    }),
];
