//! Checkpoints of large books that no wake made: sound ones whose counts are at the ends of
//! 16 bits and past them, and ones that break a single rule of soundness.

use second::answer::{Call, Frame};
use second::bytes::u32_at;

use super::{hours_up_to, PAST_16_BITS, YEAR};
use crate::draft::{put, Draft, LINE};
use crate::exchange::{Exchange, Outcome};
use crate::expectation::{withheld, Field};
use crate::histories::breakages::BREAKAGES;
use crate::histories::made_up::{sound, LEDGERS, TONNES_PER_RECORD};
use crate::job::{self, CHECKPOINT};
use crate::random::Random;

/// Where a checkpoint counts records, and where it has the length and year of its book.
const DONE: usize = 0;
const ASIDE: usize = 4;
const FIRST: usize = 8;
const REASON: usize = 12;
const LENGTH: usize = 80;
const YEAR_PLACE: usize = 84;

const EDGES: [u32; 3] = [65_535, 65_536, 65_537];
const UNSOUND: u64 = 31;

pub fn run(exchange: &mut Exchange, rng: &mut Random) -> Outcome<()> {
    let draft = hours_up_to(LINE * (PAST_16_BITS + 50));
    let book = draft.bytes();
    exchange.case("checkpoints that no wake made, counts about 65,536");
    let count = draft.records.len() as u32;
    for done in EDGES.into_iter().chain([count]) {
        for aside in EDGES.into_iter().filter(|aside| *aside <= done) {
            gone_on(exchange, rng, &book, &counting(&book, [done, aside, 0]))?;
        }
        for first in [65_534, 65_535, 65_536].into_iter().chain([done - 1]) {
            if first < done {
                gone_on(exchange, rng, &book, &counting(&book, [done, 1, first]))?;
            }
        }
    }
    exchange.case("checkpoints unsound for large books");
    for (_, breaking) in BREAKAGES {
        let mut checkpoint = sound(rng, &draft);
        breaking(rng, &mut checkpoint, count);
        unsound(exchange, rng, &book, &checkpoint)?;
    }
    off_by_little(exchange, rng, &draft)
}

/// So many done and set aside, the first for reason 4, and as many tonnes as are sound.
fn counting(book: &[u8], [done, aside, first]: [u32; 3]) -> Vec<u8> {
    let mut checkpoint = vec![0; CHECKPOINT];
    put(&mut checkpoint, DONE, &done.to_le_bytes());
    put(&mut checkpoint, ASIDE, &aside.to_le_bytes());
    put(&mut checkpoint, FIRST, &first.to_le_bytes());
    checkpoint[REASON] = 4;
    let tonnes = TONNES_PER_RECORD * u64::from(done);
    for ledger in LEDGERS {
        put(&mut checkpoint, ledger, &tonnes.to_le_bytes());
    }
    put(&mut checkpoint, LENGTH, &(book.len() as u32).to_le_bytes());
    put(&mut checkpoint, YEAR_PLACE, &YEAR.to_le_bytes());
    checkpoint
}

/// A wake of one record and one of all, and the reports before and after.
fn gone_on(
    exchange: &mut Exchange,
    rng: &mut Random,
    book: &[u8],
    checkpoint: &[u8],
) -> Outcome<()> {
    let junk = rng.junk(CHECKPOINT);
    exchange.ask(&job::report_frame(book, checkpoint, &[]))?;
    job::wake(exchange, book, checkpoint, 1, &junk)?;
    let end = job::wake(exchange, book, checkpoint, u32::MAX, &junk)?;
    let first = u64::from(u32_at(checkpoint, FIRST));
    let report = job::report_frame(book, &end.output, &[]);
    exchange.hold(&report, withheld(first, 4))?;
    Ok(())
}

fn unsound(
    exchange: &mut Exchange,
    rng: &mut Random,
    book: &[u8],
    checkpoint: &[u8],
) -> Outcome<()> {
    for (call, argument) in [(Call::Wake, 1), (Call::Report, 0)] {
        let frame = Frame {
            call,
            argument,
            book,
            checkpoint,
            output: &rng.junk(CHECKPOINT),
        };
        exchange.hold(&frame, vec![Field::Number.is(UNSOUND)])?;
    }
    Ok(())
}

/// Each count by one more than is sound, the length by a line more or less, and either by
/// what 16 bits don't show.
fn off_by_little(exchange: &mut Exchange, rng: &mut Random, draft: &Draft) -> Outcome<()> {
    exchange.case("checkpoints of large books unsound by 1, by 32 and by 65,536");
    let book = draft.bytes();
    let (count, length) = (draft.records.len() as u32, book.len() as u32);
    let (line, past) = (LINE as u32, PAST_16_BITS as u32);
    let wrong = [
        (DONE, [count + 1, count + past]),
        (ASIDE, [count + 1, count + past]),
        (FIRST, [count, count - 1 + past]),
        (LENGTH, [length + line, length + past]),
        (LENGTH, [length - line, length - past]),
    ];
    for (place, values) in wrong {
        for value in values {
            let mut checkpoint = counting(&book, [count, 1, 0]);
            put(&mut checkpoint, place, &value.to_le_bytes());
            unsound(exchange, rng, &book, &checkpoint)?;
        }
    }
    Ok(())
}
