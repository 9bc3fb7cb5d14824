//! Checkpoints that no wake made: sound ones at all their limits, and ones
//! that break a single rule of soundness by one.

use second::answer::{Call, Frame};

use super::breakages::{Breaking, BREAKAGES};
use crate::draft::{put, Draft};
use crate::exchange::{Exchange, Outcome};
use crate::expectation::Field;
use crate::job::{self, CHECKPOINT};
use crate::random::Random;
use crate::random_books;

const SOUND: usize = 6_000;
const BROKEN: usize = 150;
pub const LEDGERS: [usize; 4] = [16, 32, 48, 64];
pub const NG_PER_TONNE: u64 = 1_000_000_000_000_000;
pub const TONNES_PER_RECORD: u64 = 4_000_000;
const UNSOUND: u64 = 31;

pub fn run(exchange: &mut Exchange, rng: &mut Random) -> Outcome<()> {
    exchange.case("sound checkpoints that no wake made");
    for _ in 0..SOUND * exchange.run.settings.times {
        let draft = random_books::book(rng);
        let checkpoint = sound(rng, &draft);
        use_sound(exchange, rng, &draft.bytes(), &checkpoint)?;
    }
    for (name, breaking) in BREAKAGES {
        exchange.case(format!("checkpoint unsound: {name}"));
        for _ in 0..BROKEN * exchange.run.settings.times {
            broken(exchange, rng, breaking)?;
        }
    }
    Ok(())
}

fn use_sound(
    exchange: &mut Exchange,
    rng: &mut Random,
    book: &[u8],
    checkpoint: &[u8],
) -> Outcome<()> {
    let frame = Frame {
        call: Call::Wake,
        argument: rng.below(45) as u32,
        book,
        checkpoint,
        output: &rng.junk(CHECKPOINT),
    };
    let after = exchange.hold(&frame, vec![Field::Number.is(0)])?;
    exchange.ask(&job::report_frame(book, checkpoint, &[]))?;
    exchange.ask(&job::report_frame(book, &after.output, &[]))?;
    Ok(())
}

/// A random sound checkpoint, often of a finished run with none set aside.
pub fn sound(rng: &mut Random, draft: &Draft) -> Vec<u8> {
    let count = draft.records.len() as u64;
    let done = match rng.below(3) {
        0 => rng.below(count + 1),
        _ => count,
    };
    let set_aside = match rng.below(3) {
        0 => rng.below(done + 1),
        _ => 0,
    };
    let mut checkpoint = vec![0; CHECKPOINT];
    put(&mut checkpoint, 0, &(done as u32).to_le_bytes());
    put(&mut checkpoint, 4, &(set_aside as u32).to_le_bytes());
    if set_aside > 0 {
        let first = rng.below(done) as u32;
        put(&mut checkpoint, 8, &first.to_le_bytes());
        checkpoint[12] = 1 + rng.below(8) as u8;
    }
    fill_ledgers(rng, &mut checkpoint, TONNES_PER_RECORD * done);
    let length = draft.bytes().len() as u32;
    put(&mut checkpoint, 80, &length.to_le_bytes());
    put(&mut checkpoint, 84, &draft.year.to_le_bytes());
    checkpoint
}

/// Tonnes up to `most`, often where the decision turns; rests of all sizes,
/// often at halves of a kilogram; every second time in one ledger alone, so
/// that nothing else hides where its total lies.
fn fill_ledgers(rng: &mut Random, checkpoint: &mut [u8], most: u64) {
    let decisive = [0, 9_999, 10_000, 14_999, 15_000, 24_999, 25_000, most];
    let half = NG_PER_TONNE / 2_000;
    let rests = [0, 1, half - 1, half, NG_PER_TONNE - half, NG_PER_TONNE - 1];
    let alone = rng.one_in(2).then(|| rng.pick(&LEDGERS));
    for place in LEDGERS {
        if alone.is_some_and(|only| only != place) {
            continue;
        }
        let tonnes = match rng.below(4) {
            0 => rng.below(most + 1),
            _ => rng.pick(&decisive).min(most),
        };
        let rest = match rng.below(3) {
            0 => rng.below(NG_PER_TONNE),
            _ => rng.pick(&rests),
        };
        put(checkpoint, place, &tonnes.to_le_bytes());
        put(checkpoint, place + 8, &rest.to_le_bytes());
    }
}

fn broken(exchange: &mut Exchange, rng: &mut Random, breaking: Breaking) -> Outcome<()> {
    let mut draft = random_books::listing(rng);
    let count = 1 + rng.index(12);
    draft.records = random_books::counted_records(rng, &draft, count);
    let book = draft.bytes();
    let mut checkpoint = sound(rng, &draft);
    breaking(rng, &mut checkpoint, count as u32);
    let wake = Frame {
        call: Call::Wake,
        argument: u32::MAX,
        book: &book,
        checkpoint: &checkpoint,
        output: &rng.junk(CHECKPOINT),
    };
    exchange.hold(&wake, vec![Field::Number.is(UNSOUND)])?;
    let report = job::report_frame(&book, &checkpoint, &[]);
    exchange.hold(&report, vec![Field::Number.is(UNSOUND)])?;
    Ok(())
}
