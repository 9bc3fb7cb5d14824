//! Random books of every length up to the longest, with every kind of record in all of
//! their parts.

use std::collections::BTreeMap;

use second::book::Book;
use second::record::judged_from;

use super::{listing, PAST_16_BITS};
use crate::draft::{Draft, Line, FULL_BOOK, LINE, LONGEST_BOOK};
use crate::exchange::{Exchange, Outcome};
use crate::job;
use crate::random::Random;
use crate::random_books;

const BOOKS: usize = 3;
/// So many records, wherever they stand, are asked for by themselves.
const SAMPLES: usize = 6;
/// What comes again comes out of so many records, which may lie anywhere.
const WINDOW: usize = 30;

pub fn run(exchange: &mut Exchange, rng: &mut Random) -> Outcome<()> {
    exchange.case("random large books");
    for turn in 0..BOOKS * exchange.run.settings.times {
        let lines = (LONGEST_BOOK - FULL_BOOK) / LINE;
        let length = match turn % BOOKS {
            0 => LONGEST_BOOK,
            _ => LONGEST_BOOK - LINE * rng.index(lines),
        };
        let book = book(rng, length).bytes();
        job::whole(exchange, rng, &book, Vec::new())?;
        job::in_wakes(exchange, rng, &book)?;
        samples(exchange, rng, &book)?;
    }
    Ok(())
}

/// One in eight records has anything at its edges or past them, and one in eight is there
/// already.
fn book(rng: &mut Random, length: usize) -> Draft {
    let mut draft = listing(rng);
    for _ in 0..draft.room(length) {
        let choice = rng.below(8);
        let echo = (choice == 0).then(|| echo(rng, &draft)).flatten();
        let record = match (echo, choice) {
            (Some(echo), _) => echo,
            (None, 1) => random_books::wild_record(rng, &draft),
            (None, _) => random_books::good_record(rng, &draft),
        };
        draft.records.push(record);
    }
    draft
}

fn echo(rng: &mut Random, draft: &Draft) -> Option<Line> {
    let first = rng.index(draft.records.len() + 1);
    let window = draft.records[first..].iter().take(WINDOW);
    random_books::echo(rng, &window.copied().collect::<Vec<Line>>())
}

/// Past the places that 16 bits hold, one of each kind that counts and one of each reason;
/// and some of the whole book.
fn samples(exchange: &mut Exchange, rng: &mut Random, bytes: &[u8]) -> Outcome<()> {
    let book = Book::read(bytes).expect("the book is sound");
    let count = book.record_count();
    let mut samples = BTreeMap::new();
    let judged = book.records().zip(judged_from(&book, 0));
    for (place, (line, judged)) in (0..).zip(judged).skip(PAST_16_BITS + 1) {
        let sort = match judged {
            Ok(_) => (line[0], 0),
            Err(reason) => (0, reason as u8),
        };
        samples.entry(sort).or_insert(place);
    }
    let anywhere = (0..SAMPLES).map(|_| rng.below(u64::from(count)) as u32);
    for index in samples.into_values().chain(anywhere).chain([count]) {
        job::record(exchange, bytes, index, Vec::new())?;
    }
    Ok(())
}
