//! Jobs over books in which hours are repeated: within a wake and across wakes,
//! from older checkpoints, from ones that no wake made, and after the book was
//! edited. The earlier records are in the book and not in the checkpoint.

mod budgets;
mod edited;
mod past_the_first;

pub use budgets::full_books;

use super::{brought, every_budget, older, record_by_record, BOOKS};
use crate::draft::{Draft, MONITORED};
use crate::exchange::{Exchange, Outcome};
use crate::random::Random;
use crate::random_books;

pub fn run(exchange: &mut Exchange, rng: &mut Random) -> Outcome<()> {
    past_the_first::run(exchange, rng)?;
    edited::run(exchange, rng)?;
    let times = exchange.run.settings.times;
    exchange.case("repeats, wakes of random budgets from older checkpoints");
    for _ in 0..BOOKS / 15 * times {
        let book = book(rng).bytes();
        older(exchange, rng, &[book])?;
    }
    exchange.case("repeats, every budget from 0 to past n, and the greatest");
    for _ in 0..BOOKS / 100 * times {
        let draft = book(rng);
        every_budget(exchange, rng, &draft)?;
    }
    exchange.case("repeats, record by record");
    for _ in 0..BOOKS / 30 * times {
        let draft = book(rng);
        record_by_record(exchange, rng, &draft)?;
    }
    exchange.case("repeats, checkpoints of another book, length or year");
    for _ in 0..BOOKS / 15 * times {
        let (one, other) = (book(rng), book(rng));
        let shuffled = in_another_order(rng, &one);
        brought(exchange, rng, &one, &other)?;
        brought(exchange, rng, &one, &shuffled)?;
    }
    budgets::small_books(exchange, rng)
}

/// Records that count, and among them hours again and ones that are near to them.
fn book(rng: &mut Random) -> Draft {
    let mut draft = random_books::listing(rng);
    draft.units[0][2] = MONITORED;
    let count = 4 + rng.index(16);
    draft.records = random_books::counted_records(rng, &draft, count);
    let counted = draft.records.clone();
    for _ in 0..rng.below(8) {
        if let Some(echo) = random_books::echo(rng, &counted) {
            let place = rng.index(draft.records.len() + 1);
            draft.records.insert(place, echo);
        }
    }
    draft
}

/// The first and the later of a pair may change places.
fn in_another_order(rng: &mut Random, draft: &Draft) -> Draft {
    let mut other = draft.clone();
    let count = other.records.len();
    for place in 1..count {
        other.records.swap(place, rng.index(place + 1));
    }
    other
}
