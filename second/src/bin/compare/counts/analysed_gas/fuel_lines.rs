//! What was compared of molar volumes: sound ones of each kind of fuel, those for which
//! alone a book is refused, and such as are edited between two calls.

use std::ops::Range;

use second::answer::Call;
use second::book::Book;
use second::bytes::u32_at;
use second::lines::{GAS, LIQUID, SOLID};

use super::super::{Made, Question, Rows};
use crate::draft::{LEAST_MVC, LINE, MOST_MVC, MVC_PLACE};

const FUEL_LINES_WRONG: u8 = 23;

const KINDS: [(u8, &str); 3] = [(SOLID, "a solid"), (LIQUID, "a liquid"), (GAS, "a gas")];
const SOUND: [u32; 3] = [0, LEAST_MVC, MOST_MVC];
const WRONG: [u32; 4] = [1, LEAST_MVC - 1, MOST_MVC + 1, u32::MAX];
const CALLS: [(Call, &str); 2] = [(Call::Wake, "a wake"), (Call::Report, "a report")];

#[derive(Default)]
pub struct FuelLineCounts {
    /// In books that a fresh start was made of, by kind and value.
    sound: [[u64; SOUND.len()]; KINDS.len()],
    /// By kind and value.
    wrong: [[u64; WRONG.len()]; KINDS.len()],
    /// Calls with a checkpoint that was just made under a book which differs in molar
    /// volumes alone.
    edited: [u64; CALLS.len()],
}

impl FuelLineCounts {
    pub fn count(&mut self, question: &Question, number: u8, latest: Option<&Made>) {
        let book = question.book;
        if number == FUEL_LINES_WRONG && is_mended(book) {
            add(&mut self.wrong, &WRONG, book);
        }
        if number == 0 && question.call == Call::Fresh as u8 {
            add(&mut self.sound, &SOUND, book);
        }
        for (count, (call, _)) in self.edited.iter_mut().zip(CALLS) {
            let is_it = number == 0 && question.call == call as u8;
            *count += u64::from(is_it && latest.is_some_and(|made| is_edited(made, question)));
        }
    }

    pub fn table(&self) -> Vec<(&'static str, Rows)> {
        let calls = CALLS.map(|(_, name)| name.to_string());
        vec![
            ("molar volume", rows(&SOUND, &self.sound)),
            ("number 23 for molar volume", rows(&WRONG, &self.wrong)),
            (
                "molar volume edited before",
                calls.into_iter().zip(self.edited).collect(),
            ),
        ]
    }
}

fn rows<const VALUES: usize>(values: &[u32; VALUES], counts: &[[u64; VALUES]]) -> Rows {
    let mut rows = Vec::new();
    for ((_, kind), by_value) in KINDS.iter().zip(counts) {
        for (value, count) in values.iter().zip(by_value) {
            rows.push((format!("{value} of {kind}"), *count));
        }
    }
    rows
}

/// Where the fuel lines of a book are whose trailer is right.
fn fuel_lines(book: &[u8]) -> Range<usize> {
    let end = book.len() - LINE;
    u32_at(&book[end..], 12) as usize..end
}

fn add<const VALUES: usize>(counts: &mut [[u64; VALUES]], values: &[u32], book: &[u8]) {
    for fuel in book[fuel_lines(book)].chunks(LINE) {
        let kind = KINDS.iter().position(|(kind, _)| *kind == fuel[2]);
        let value = values
            .iter()
            .position(|&mvc| mvc == u32_at(fuel, MVC_PLACE));
        if let (Some(kind), Some(value)) = (kind, value) {
            counts[kind][value] += 1;
        }
    }
}

fn without_volumes(book: &[u8]) -> Vec<u8> {
    let mut without = book.to_vec();
    for fuel in without[fuel_lines(book)].chunks_mut(LINE) {
        fuel[MVC_PLACE..MVC_PLACE + 4].fill(0);
    }
    without
}

/// Whether fuel lines that are wrong are right without their molar volumes.
fn is_mended(book: &[u8]) -> bool {
    Book::read(&without_volumes(book)).is_ok()
}

/// Most books are the same, so their fuel lines are held against each other first.
fn is_edited(made: &Made, question: &Question) -> bool {
    let [one, other] = [&made.book[..], question.book];
    let might_be = made.checkpoint == question.checkpoint
        && one.len() == other.len()
        && one[fuel_lines(one)] != other[fuel_lines(other)];
    might_be && without_volumes(one) == without_volumes(other)
}

#[cfg(test)]
mod tests {
    use super::*;
    use crate::draft::put;
    use crate::sample::small_book_with_analysed_gas;

    fn question(call: Call, book: &[u8]) -> Question<'_> {
        Question {
            call: call as u8,
            argument: 0,
            book,
            checkpoint: &[],
        }
    }

    /// The first fuel is a gas, the last a liquid of 20,000.
    #[test]
    fn a_molar_volume_is_told_where_it_alone_is_wrong() {
        for (mvc, last_byte, told) in [(19_999, 0, 1), (27_001, 0, 1), (19_999, 1, 0)] {
            let mut draft = small_book_with_analysed_gas();
            put(&mut draft.fuels[0], MVC_PLACE, &u32::to_le_bytes(mvc));
            draft.fuels[0][LINE - 1] = last_byte;
            let mut counts = FuelLineCounts::default();
            let book = draft.bytes();
            counts.count(&question(Call::Fresh, &book), FUEL_LINES_WRONG, None);
            assert_eq!(counts.wrong[2].iter().sum::<u64>(), told, "{mvc}");
            assert_eq!(counts.wrong[..2], [[0; WRONG.len()]; 2]);
        }
        let mut counts = FuelLineCounts::default();
        let book = small_book_with_analysed_gas().bytes();
        counts.count(&question(Call::Fresh, &book), 0, None);
        assert_eq!(counts.sound, [[0; 3], [0, 1, 0], [0; 3]]);
    }

    #[test]
    fn an_edit_is_told_where_only_molar_volumes_differ() {
        let made = Made {
            book: small_book_with_analysed_gas().bytes(),
            checkpoint: Vec::new(),
        };
        for (place, told) in [(MVC_PLACE, true), (4, false)] {
            let mut draft = small_book_with_analysed_gas();
            draft.fuels[1][place] ^= 1;
            let book = draft.bytes();
            assert_eq!(is_edited(&made, &question(Call::Wake, &book)), told);
        }
        let same = made.book.clone();
        assert!(!is_edited(&made, &question(Call::Wake, &same)));
    }
}
