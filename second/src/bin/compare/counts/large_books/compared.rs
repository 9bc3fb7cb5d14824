//! A call with a large book, and how often what is asked of such calls was so.

use second::answer::{Answer, Call};
use second::bytes::u32_at;

use super::super::{Made, Question, Rows};
use crate::draft::LINE;

/// Where a checkpoint counts records.
pub const DONE: usize = 0;
pub const ASIDE: usize = 4;
pub const FIRST: usize = 8;

pub const PAST_16_BITS: u32 = 65_536;

pub struct Compared<'a> {
    pub question: &'a Question<'a>,
    pub answer: &'a Answer,
    pub latest: Option<&'a Made>,
    pub number: u8,
}

pub type Row = (&'static str, fn(&Compared) -> bool);

/// Rows of one subject, and the calls that they are asked of.
#[derive(Clone, Copy)]
pub struct Table {
    pub name: &'static str,
    pub is_of: fn(&Compared) -> bool,
    pub rows: &'static [Row],
}

pub struct Tally {
    table: Table,
    counts: Vec<u64>,
}

impl<'a> Compared<'a> {
    pub fn of(question: &'a Question, answer: &'a Answer, latest: Option<&'a Made>) -> Self {
        Compared {
            question,
            answer,
            latest,
            number: answer.head[0],
        }
    }

    pub fn is(&self, call: Call) -> bool {
        self.question.call == call as u8
    }

    /// n of a book that is read.
    pub fn records(&self) -> u32 {
        let book = self.question.book;
        u32_at(&book[book.len() - LINE..], 8) / LINE as u32
    }

    /// Whether this is the place of the last record.
    pub fn is_last(&self, place: u32) -> bool {
        self.records().checked_sub(1) == Some(place)
    }

    /// A count of the checkpoint that was given.
    pub fn before(&self, place: usize) -> u32 {
        u32_at(self.question.checkpoint, place)
    }

    /// A count of the checkpoint that was made.
    pub fn after(&self, place: usize) -> u32 {
        u32_at(&self.answer.output, place)
    }

    /// The records that a wake went through, those done, or the first set aside.
    pub fn told(&self) -> u32 {
        u32_at(&self.answer.head, 4)
    }
}

impl Tally {
    pub fn of(table: Table) -> Tally {
        Tally {
            table,
            counts: vec![0; table.rows.len()],
        }
    }

    pub fn count(&mut self, compared: &Compared) {
        if !(self.table.is_of)(compared) {
            return;
        }
        for (count, (_, is_so)) in self.counts.iter_mut().zip(self.table.rows) {
            *count += u64::from(is_so(compared));
        }
    }

    pub fn rows(&self) -> (&'static str, Rows) {
        let names = self.table.rows.iter().map(|(name, _)| name.to_string());
        let rows = names.zip(self.counts.iter().copied()).collect();
        (self.table.name, rows)
    }
}
