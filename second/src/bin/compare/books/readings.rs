//! Monitor hours: every pair of special readings, halves of R, random ones.

use crate::draft::{hour, numbered_apart, unit, Draft, Line, FIRST_SET};
use crate::exchange::{Exchange, Outcome};
use crate::job;
use crate::near_halves::{large_near_half, near_half, near_half_of_one};
use crate::random::Random;
use crate::specials::{singles, FLOW_LIMIT, PERCENT_LIMIT};

const HOURS_PER_BOOK: usize = 64;
/// Of percent x flow, where there is no moisture.
const MULTIPLE: u16 = 1_000;

/// The random pairs of a case, and how many books hold them.
type Case = (&'static str, usize, fn(&mut Random) -> [u32; 2]);

const CASES: [Case; 5] = [
    ("halves of R and the singles next to them", 40, |rng| {
        near_half(rng, MULTIPLE)
    }),
    ("large R, one part in 256 away from a half", 20, |rng| {
        large_near_half(rng, MULTIPLE)
    }),
    ("R of 0 and of 1, next to a half", 10, |rng| {
        near_half_of_one(rng, MULTIPLE)
    }),
    ("random usable readings", 300, usable),
    ("random bits as readings", 20, random_bits),
];

pub fn run(exchange: &mut Exchange, rng: &mut Random) -> Outcome<()> {
    exchange.case("every pair of special readings");
    for percent in singles(PERCENT_LIMIT) {
        let flows = singles(FLOW_LIMIT);
        let pairs: Vec<[u32; 2]> = flows.iter().map(|&flow| [percent, flow]).collect();
        compare(exchange, rng, &pairs)?;
    }
    for (name, books, pair) in CASES {
        exchange.case(name);
        for _ in 0..books * exchange.run.settings.times {
            let pairs: Vec<_> = (0..HOURS_PER_BOOK).map(|_| pair(rng)).collect();
            compare(exchange, rng, &pairs)?;
        }
    }
    Ok(())
}

/// The pairs as hours of a monitored unit and, alternating, of a plain one
/// now and then, so that reasons 4 and 5 meet.
fn compare(exchange: &mut Exchange, rng: &mut Random, pairs: &[[u32; 2]]) -> Outcome<()> {
    let mut record = |&[percent, flow]: &[u32; 2]| -> Line {
        let unit = if rng.one_in(16) { 2 } else { 1 };
        hour(unit, 1, percent, flow)
    };
    let draft = Draft {
        records: numbered_apart(pairs.iter().map(&mut record).collect()),
        units: vec![unit(1, true, 2_500), unit(2, false, 2_500)],
        fuels: Vec::new(),
        year: 2012,
        warming_set: FIRST_SET,
    };
    let book = draft.bytes();
    job::everything(exchange, rng, &book, pairs.len())
}

fn usable(rng: &mut Random) -> [u32; 2] {
    let mut below = |limit: u32| match rng.below(4) {
        // Near the limit, of ordinary size, or of any size at all.
        0 => limit - rng.below(1 << 20) as u32,
        1 => rng.below(u64::from(limit) + 1) as u32,
        _ => limit - rng.below(0x0C00_0000) as u32,
    };
    [below(PERCENT_LIMIT), below(FLOW_LIMIT)]
}

fn random_bits(rng: &mut Random) -> [u32; 2] {
    [rng.word(), rng.word()]
}
