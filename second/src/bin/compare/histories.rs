//! Group 4: wakes of all budgets from all sorts of checkpoints.

pub mod analysed_gas;
pub mod breakages;
mod changed_set;
mod dry_units;
pub mod made_up;
pub mod repeats;
mod smallest;

use std::collections::BTreeMap;

use crate::draft::{put, Draft};
use crate::exchange::{Exchange, Outcome};
use crate::job::{self, CHECKPOINT};
use crate::random::Random;
use crate::random_books;

const BOOKS: usize = 1_500;
const WAKES: usize = 24;

pub fn run(exchange: &mut Exchange, rng: &mut Random) -> Outcome<()> {
    smallest::run(exchange, rng)?;
    dry_units::run(exchange, rng)?;
    analysed_gas::run(exchange, rng)?;
    repeats::run(exchange, rng)?;
    exchange.case("wakes of random budgets from older checkpoints");
    for _ in 0..BOOKS * exchange.run.settings.times {
        let book = random_books::book(rng).bytes();
        older(exchange, rng, &[book])?;
    }
    exchange.case("every budget from 0 to past n, and the greatest");
    for _ in 0..BOOKS / 20 * exchange.run.settings.times {
        let draft = random_books::book(rng);
        every_budget(exchange, rng, &draft)?;
    }
    exchange.case("record by record");
    for _ in 0..BOOKS / 10 * exchange.run.settings.times {
        let draft = random_books::book(rng);
        record_by_record(exchange, rng, &draft)?;
    }
    exchange.case("checkpoints of another book, length or year");
    for _ in 0..BOOKS * exchange.run.settings.times {
        foreign(exchange, rng)?;
    }
    made_up::run(exchange, rng)?;
    changed_set::run(exchange, rng)?;
    repeats::full_books(exchange, rng)
}

fn budget(rng: &mut Random) -> u32 {
    match rng.below(6) {
        0 => 0,
        1 => 1,
        2 => u32::MAX - rng.below(3) as u32,
        3 => 1 << rng.below(32),
        _ => rng.below(45) as u32,
    }
}

/// Wakes under books that take turns; but for what no mass depends on they are
/// one book. Also the requirements' third demand, within second: the
/// checkpoint at a place is the same bytes whatever the history.
fn older(exchange: &mut Exchange, rng: &mut Random, books: &[Vec<u8>]) -> Outcome<()> {
    let start = job::fresh(exchange, &books[0], &rng.junk(CHECKPOINT))?;
    let mut checkpoints = vec![start.output.clone()];
    let mut at_place: BTreeMap<[u8; 4], Vec<u8>> = BTreeMap::new();
    for turn in 0..WAKES {
        let from = rng.index(checkpoints.len());
        let budget = budget(rng);
        let after = job::wake(
            exchange,
            &books[turn % books.len()],
            &checkpoints[from],
            budget,
            &rng.junk(CHECKPOINT),
        )?;
        let checkpoint = after.output.clone();
        let (place, _) = checkpoint
            .split_first_chunk()
            .expect("a checkpoint starts with its place");
        let known = at_place.entry(*place).or_insert_with(|| checkpoint.clone());
        let same = *known == checkpoint;
        exchange.state(
            same,
            "second's checkpoint at a place depends on the history",
        )?;
        for book in books {
            exchange.ask(&job::report_frame(book, &checkpoint, &[]))?;
        }
        checkpoints.push(checkpoint);
    }
    Ok(())
}

fn every_budget(exchange: &mut Exchange, rng: &mut Random, draft: &Draft) -> Outcome<()> {
    let book = draft.bytes();
    let count = draft.records.len() as u32;
    let start = job::fresh(exchange, &book, &rng.junk(CHECKPOINT))?;
    let part = rng.below(u64::from(count) + 1) as u32;
    let middle = job::wake(exchange, &book, &start.output, part, &rng.junk(CHECKPOINT))?;
    for budget in (0..=count + 2).chain([u32::MAX - count, u32::MAX]) {
        for from in [&start.output, &middle.output] {
            let after = job::wake(exchange, &book, from, budget, &rng.junk(CHECKPOINT))?;
            exchange.ask(&job::report_frame(&book, &after.output, &[]))?;
        }
    }
    Ok(())
}

fn record_by_record(exchange: &mut Exchange, rng: &mut Random, draft: &Draft) -> Outcome<()> {
    let book = draft.bytes();
    let mut checkpoint = job::fresh(exchange, &book, &rng.junk(CHECKPOINT))?
        .output
        .clone();
    for _ in 0..=draft.records.len() {
        exchange.ask(&job::report_frame(&book, &checkpoint, &[]))?;
        let after = job::wake(exchange, &book, &checkpoint, 1, &rng.junk(CHECKPOINT))?;
        checkpoint = after.output.clone();
    }
    exchange.ask(&job::report_frame(&book, &checkpoint, &[]))?;
    Ok(())
}

/// Two random books, or one in two years.
fn foreign(exchange: &mut Exchange, rng: &mut Random) -> Outcome<()> {
    let one = random_books::book(rng);
    let mut other = random_books::book(rng);
    if rng.one_in(2) {
        other = Draft {
            year: other.year,
            ..one.clone()
        };
    }
    brought(exchange, rng, &one, &other)
}

/// A checkpoint of one book brought to another, as it is and with the other's
/// length or year, or both, written into it.
pub fn brought(
    exchange: &mut Exchange,
    rng: &mut Random,
    one: &Draft,
    other: &Draft,
) -> Outcome<()> {
    let (home, abroad) = (one.bytes(), other.bytes());
    let start = job::fresh(exchange, &home, &rng.junk(CHECKPOINT))?;
    let budget = budget(rng);
    let after = job::wake(
        exchange,
        &home,
        &start.output,
        budget,
        &rng.junk(CHECKPOINT),
    )?;
    for (length_fits, year_fits) in [(false, false), (true, false), (false, true), (true, true)] {
        let mut checkpoint = after.output.clone();
        if length_fits {
            put(&mut checkpoint, 80, &(abroad.len() as u32).to_le_bytes());
        }
        if year_fits {
            put(&mut checkpoint, 84, &other.year.to_le_bytes());
        }
        let output = rng.junk(CHECKPOINT);
        let moved = job::wake(exchange, &abroad, &checkpoint, budget, &output)?;
        exchange.ask(&job::report_frame(&abroad, &checkpoint, &output))?;
        exchange.ask(&job::report_frame(&abroad, &moved.output, &output))?;
    }
    Ok(())
}
