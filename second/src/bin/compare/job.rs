//! Whole jobs: fresh start, wakes and report, and every record by itself.

use std::rc::Rc;

use second::answer::{Answer, Call, Frame};

use crate::draft::LINE;
use crate::exchange::{Exchange, Outcome};
use crate::expectation::Expectation;
use crate::random::Random;

pub const CHECKPOINT: usize = 96;

pub fn fresh(exchange: &mut Exchange, book: &[u8], output: &[u8]) -> Outcome<Rc<Answer>> {
    exchange.ask(&Frame {
        call: Call::Fresh,
        argument: 0,
        book,
        checkpoint: &[],
        output,
    })
}

pub fn wake(
    exchange: &mut Exchange,
    book: &[u8],
    checkpoint: &[u8],
    budget: u32,
    output: &[u8],
) -> Outcome<Rc<Answer>> {
    exchange.ask(&Frame {
        call: Call::Wake,
        argument: budget,
        book,
        checkpoint,
        output,
    })
}

pub fn report_frame<'a>(book: &'a [u8], checkpoint: &'a [u8], output: &'a [u8]) -> Frame<'a> {
    Frame {
        call: Call::Report,
        argument: 0,
        book,
        checkpoint,
        output,
    }
}

/// A fresh start, one wake over everything, and the report, held against
/// what a document prints.
pub fn whole(
    exchange: &mut Exchange,
    rng: &mut Random,
    book: &[u8],
    printed: Vec<Expectation>,
) -> Outcome<Rc<Answer>> {
    let junk = rng.junk(CHECKPOINT);
    let start = fresh(exchange, book, &junk)?;
    let end = wake(exchange, book, &start.output, u32::MAX, &junk)?;
    exchange.hold(&report_frame(book, &end.output, &junk[..8]), printed)
}

/// A job in several wakes of random budgets, with a report before each.
pub fn in_wakes(exchange: &mut Exchange, rng: &mut Random, book: &[u8]) -> Outcome<()> {
    let records = (book.len() / LINE) as u64;
    let mut checkpoint = fresh(exchange, book, &rng.junk(CHECKPOINT))?.output.clone();
    for _ in 0..1 + rng.below(4) {
        exchange.ask(&report_frame(book, &checkpoint, &[]))?;
        let budget = match rng.below(8) {
            0 => 0,
            1 => u32::MAX,
            _ => rng.below(records + 2) as u32,
        };
        let after = wake(exchange, book, &checkpoint, budget, &rng.junk(CHECKPOINT))?;
        checkpoint = after.output.clone();
    }
    let end = wake(exchange, book, &checkpoint, u32::MAX, &rng.junk(CHECKPOINT))?;
    exchange.ask(&report_frame(book, &end.output, &[]))?;
    Ok(())
}

/// Call 4 for one record, held against what a document prints.
pub fn record(
    exchange: &mut Exchange,
    book: &[u8],
    index: u32,
    printed: Vec<Expectation>,
) -> Outcome<Rc<Answer>> {
    let frame = Frame {
        call: Call::Record,
        argument: index,
        book,
        checkpoint: &[],
        output: &[],
    };
    exchange.hold(&frame, printed)
}

/// Call 4 for the first `count` records, and for one that is not there.
pub fn records(exchange: &mut Exchange, book: &[u8], count: usize) -> Outcome<()> {
    for index in (0..=count as u32).chain([u32::MAX]) {
        record(exchange, book, index, Vec::new())?;
    }
    Ok(())
}

/// Every record by itself and the job in one and in several wakes.
pub fn everything(
    exchange: &mut Exchange,
    rng: &mut Random,
    book: &[u8],
    count: usize,
) -> Outcome<()> {
    records(exchange, book, count)?;
    whole(exchange, rng, book, Vec::new())?;
    in_wakes(exchange, rng, book)
}
