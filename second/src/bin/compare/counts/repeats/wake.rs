//! Where the first of a pair lies in a wake, and how the wake was begun.

use second::book::Book;
use second::bytes::u32_at;
use second::checkpoint::Checkpoint;
use second::earlier_records::EarlierRecords;
use second::record::{judged_from, Reason};

use super::super::{Made, Question};
use super::asked::unit;
use crate::repeats::Kind;

/// A wake that was made, as to its records of one kind.
pub struct Wake<'a> {
    pub kind: Kind,
    pub question: &'a Question<'a>,
    latest: Option<&'a Made>,
    book: &'a Book<'a>,
    begun: usize,
    pub moved: usize,
    /// The units of those that repeat ones of this wake.
    pub within: Vec<u16>,
    /// And of those that repeat ones before it alone.
    pub across: Vec<u16>,
    pub begins_with_one: bool,
}

impl<'a> Wake<'a> {
    pub fn of(
        kind: Kind,
        question: &'a Question,
        latest: Option<&'a Made>,
        book: &'a Book,
        moved: usize,
    ) -> Self {
        let done = u32_at(question.checkpoint, 0);
        let mut wake = Wake {
            kind,
            question,
            latest,
            book,
            begun: done as usize,
            moved,
            within: Vec::new(),
            across: Vec::new(),
            begins_with_one: false,
        };
        let mut in_wake = EarlierRecords::default();
        let lines = book.records().skip(wake.begun);
        let judged = judged_from(book, done).take(moved);
        for (place, (line, judged)) in lines.zip(judged).enumerate() {
            let stands_in_wake = in_wake.go_through(line);
            if judged != Err(Reason::Repeated) || line[0] != kind.byte_0() {
                continue;
            }
            wake.begins_with_one |= place == 0;
            match stands_in_wake {
                true => wake.within.push(unit(line)),
                false => wake.across.push(unit(line)),
            }
        }
        wake
    }

    pub fn is_across_by(&self, budget: u32) -> bool {
        self.question.argument == budget && !self.across.is_empty()
    }

    /// The checkpoint is not the one at this place.
    pub fn is_from_nowhere(&self) -> bool {
        let mut checkpoint = Checkpoint::fresh(self.book);
        for judged in judged_from(self.book, 0).take(self.begun) {
            checkpoint.take(judged);
        }
        checkpoint.bytes()[..] != *self.question.checkpoint
    }

    pub fn is_from_an_older_one(&self) -> bool {
        self.latest.is_some_and(|made| {
            made.book == self.question.book && u32_at(&made.checkpoint, 0) as usize > self.begun
        })
    }

    /// Whether each record of the wake stands before it, or did in the book with which
    /// the checkpoint was made, if that is another one.
    fn before_and_after_an_edit(&self) -> Option<Vec<[bool; 2]>> {
        let made = self.latest.filter(|made| {
            made.checkpoint == self.question.checkpoint && made.book != self.question.book
        })?;
        let former = Book::read(&made.book).expect("the checkpoint was made");
        let standing = |book: &Book| {
            let mut earlier = EarlierRecords::before(book, self.begun as u32);
            let lines = self.book.records().skip(self.begun).take(self.moved);
            let stands =
                move |line: &[u8]| earlier.go_through(line) && line[0] == self.kind.byte_0();
            lines.map(stands).collect()
        };
        let [before, after]: [Vec<bool>; 2] = [&former, self.book].map(standing);
        Some(
            before
                .into_iter()
                .zip(after)
                .map(<[bool; 2]>::from)
                .collect(),
        )
    }

    pub fn is_edited_so_that(&self, change: [bool; 2]) -> bool {
        self.before_and_after_an_edit()
            .is_some_and(|changes| changes.contains(&change))
    }

    pub fn repeats(&self) -> usize {
        self.within.len() + self.across.len()
    }

    pub fn repeated_units(&self) -> usize {
        let mut units = [&self.within[..], &self.across[..]].concat();
        units.sort_unstable();
        units.dedup();
        units.len()
    }

    pub fn is_alone_and_of_more_than(&self, many: usize) -> bool {
        let is_of_kind = |line: &[u8]| line[0] == self.kind.byte_0();
        self.moved > many && self.book.records().all(is_of_kind)
    }
}
