//! Jobs that go on, and are reported, under a book that differs in its set of
//! warming values alone: no checkpoint depends on the set, and a report follows
//! the book that it is asked of.

use super::{older, BOOKS};
use crate::draft::{other_set, SETS};
use crate::exact;
use crate::exchange::{Exchange, Outcome};
use crate::job::{self, CHECKPOINT};
use crate::random::Random;
use crate::random_books;
use crate::warming::{Edge, EDGES};

pub fn run(exchange: &mut Exchange, rng: &mut Random) -> Outcome<()> {
    exchange.case("the set changed between two wakes, totals at the thresholds");
    for edge in EDGES {
        for begun_under in SETS {
            at_a_threshold(exchange, rng, &edge, begun_under)?;
        }
    }
    exchange.case("the set changed at each wake from older checkpoints");
    for _ in 0..BOOKS / 2 * exchange.run.settings.times {
        let draft = random_books::book(rng);
        let other = draft.under(other_set(draft.warming_set));
        older(exchange, rng, &[draft.bytes(), other])?;
    }
    Ok(())
}

/// Begun under one set, gone on under the other from each place, and reported
/// under both.
fn at_a_threshold(
    exchange: &mut Exchange,
    rng: &mut Random,
    edge: &Edge,
    begun_under: u8,
) -> Outcome<()> {
    let draft = exact::book(edge.totals);
    let changed_to = other_set(begun_under);
    let (home, abroad) = (draft.under(begun_under), draft.under(changed_to));
    for place in 0..=draft.records.len() as u32 {
        let changed = in_two_wakes(exchange, rng, [&home, &abroad], place)?;
        for (book, set) in [(&abroad, changed_to), (&home, begun_under)] {
            let report = job::report_frame(book, &changed[2], &[]);
            exchange.hold(&report, edge.report(set))?;
        }
        let unchanged = in_two_wakes(exchange, rng, [&abroad, &abroad], place)?;
        let same = changed == unchanged;
        exchange.state(same, "second's checkpoints depend on the set")?;
    }
    Ok(())
}

/// The checkpoints at the start, at a place and at the end, the first two with
/// one book and the last with another.
fn in_two_wakes(
    exchange: &mut Exchange,
    rng: &mut Random,
    [book, later_book]: [&[u8]; 2],
    place: u32,
) -> Outcome<[Vec<u8>; 3]> {
    let junk = rng.junk(CHECKPOINT);
    let start = job::fresh(exchange, book, &junk)?;
    let middle = job::wake(exchange, book, &start.output, place, &junk)?;
    let end = job::wake(exchange, later_book, &middle.output, u32::MAX, &junk)?;
    Ok([start, middle, end].map(|answer| answer.output.clone()))
}
