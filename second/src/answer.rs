//! The calls, each giving what its answer must hold: 64 bytes and the output
//! buffer as it stands afterwards. `replay` knows the first four.

use crate::book::Book;
use crate::checkpoint::{Checkpoint, LENGTH};
use crate::record::{judged_at, judged_from};
use crate::refusal::Refusal;
use crate::report::Report;

pub const HEAD: usize = 64;
pub const NO_SUCH_RECORD: u8 = 255;

#[derive(Clone, Copy, Debug, PartialEq, Eq, PartialOrd, Ord)]
#[repr(u8)]
pub enum Call {
    Fresh = 1,
    Wake = 2,
    Report = 3,
    Record = 4,
    Left = 5,
}

/// One call as a frame carries it.
#[derive(Clone, Copy, Debug)]
pub struct Frame<'a> {
    pub call: Call,
    /// The budget of a wake, the index of one record, else 0.
    pub argument: u32,
    pub book: &'a [u8],
    pub checkpoint: &'a [u8],
    pub output: &'a [u8],
}

#[derive(Clone, Debug, PartialEq, Eq)]
pub struct Answer {
    pub head: [u8; HEAD],
    pub output: Vec<u8>,
}

pub fn answer(frame: &Frame) -> Answer {
    let mut output = frame.output.to_vec();
    let head = match frame.call {
        Call::Fresh => fresh(frame.book, &mut output),
        Call::Wake => wake(frame.book, frame.checkpoint, frame.argument, &mut output),
        Call::Report => report(frame.book, frame.checkpoint),
        Call::Record => one_record(frame.book, frame.argument),
        Call::Left => left(frame.book, frame.checkpoint),
    };
    Answer { head, output }
}

pub fn fresh(book: &[u8], output: &mut [u8]) -> [u8; HEAD] {
    let written = Book::read(book).and_then(|book| save(&Checkpoint::fresh(&book), output));
    match written {
        Ok(()) => [0; HEAD],
        Err(refusal) => refused(refusal),
    }
}

pub fn wake(book: &[u8], checkpoint: &[u8], budget: u32, output: &mut [u8]) -> [u8; HEAD] {
    let moved = Book::read(book).and_then(|book| {
        let before = Checkpoint::read(checkpoint, &book)?;
        let after = advance(&book, before, budget);
        save(&after, output)?;
        Ok(after.done - before.done)
    });
    match moved {
        Ok(moved) => with_count([0; HEAD], moved),
        Err(refusal) => refused(refusal),
    }
}

pub fn report(book: &[u8], checkpoint: &[u8]) -> [u8; HEAD] {
    match reported(book, checkpoint) {
        Ok(report) => {
            let mut head = [0; HEAD];
            for (place, figure) in (8..).step_by(8).zip(report.figures) {
                head[place..place + 8].copy_from_slice(&figure.to_le_bytes());
            }
            head[48] = u8::from(report.must_report);
            head
        }
        Err(refusal) => refused(refusal),
    }
}

pub fn one_record(book: &[u8], index: u32) -> [u8; HEAD] {
    let book = match Book::read(book) {
        Ok(book) => book,
        Err(refusal) => return refused(refusal),
    };
    let mut head = [0; HEAD];
    match judged_at(&book, index) {
        None => head[2] = NO_SUCH_RECORD,
        Some(Err(reason)) => head[1] = reason as u8,
        Some(Ok(addition)) => {
            head[2] = addition.method;
            head[3] = addition.ledger as u8;
            head[8..16].copy_from_slice(&addition.co2_ug.to_le_bytes());
            head[16..24].copy_from_slice(&addition.ch4_ng.to_le_bytes());
            head[24..32].copy_from_slice(&addition.n2o_ng.to_le_bytes());
        }
    }
    head
}

/// The records that are left: of the n of a book, those that a checkpoint has
/// not done.
pub fn left(book: &[u8], checkpoint: &[u8]) -> [u8; HEAD] {
    let counted = Book::read(book).and_then(|book| {
        let checkpoint = Checkpoint::read(checkpoint, &book)?;
        Ok(book.record_count() - checkpoint.done)
    });
    match counted {
        Ok(count) => with_count([0; HEAD], count),
        Err(refusal) => refused(refusal),
    }
}

/// A report, or the smallest number that withholds it.
pub fn reported(book: &[u8], checkpoint: &[u8]) -> Result<Report, Refusal> {
    let book = Book::read(book)?;
    let checkpoint = Checkpoint::read(checkpoint, &book)?;
    let Checkpoint { done, first, .. } = checkpoint;
    if done < book.record_count() {
        return Err(Refusal::Unfinished { done });
    }
    if checkpoint.set_aside > 0 {
        let reason = checkpoint.reason;
        return Err(Refusal::SetAside { first, reason });
    }
    Ok(Report::of(&checkpoint.ledgers, book.warming))
}

fn advance(book: &Book, before: Checkpoint, budget: u32) -> Checkpoint {
    let mut checkpoint = before;
    for judged in judged_from(book, before.done).take(budget as usize) {
        checkpoint.take(judged);
    }
    checkpoint
}

fn save(checkpoint: &Checkpoint, output: &mut [u8]) -> Result<(), Refusal> {
    if output.len() != LENGTH {
        return Err(Refusal::OutputLength);
    }
    output.copy_from_slice(&checkpoint.bytes());
    Ok(())
}

fn refused(refusal: Refusal) -> [u8; HEAD] {
    let mut head = [0; HEAD];
    head[0] = refusal.number();
    match refusal {
        Refusal::Unfinished { done } => with_count(head, done),
        Refusal::SetAside { first, reason } => {
            head[1] = reason;
            with_count(head, first)
        }
        _ => head,
    }
}

fn with_count(mut head: [u8; HEAD], count: u32) -> [u8; HEAD] {
    head[4..8].copy_from_slice(&count.to_le_bytes());
    head
}
