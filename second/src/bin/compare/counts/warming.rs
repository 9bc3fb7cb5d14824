//! What was compared of the two sets of warming values.

use second::answer::{Answer, Call};
use second::book::Book;
use second::checkpoint::Checkpoint;
use second::ledger::{Ledgers, NG_PER_TONNE};
use second::report::{co2e, Report};
use second::warming::Warming;

use super::{Made, Question, Rows};
use crate::draft::{FIRST_SET, LINE, SECOND_SET, SETS, SET_PLACE};

const TRAILER_WRONG: u8 = 21;
const THRESHOLDS: [&str; 2] = ["10,000 t", "25,000 t"];
const CALLS_ON: [&str; 2] = ["a wake", "a report"];

#[derive(Default)]
pub struct WarmingCounts {
    /// Reports given, by the set of their book.
    reports: [u64; 2],
    /// Trailers in which nothing but the set is wrong.
    wrong_sets: u64,
    /// Reports given where the site must report under one set alone: by that
    /// set, the threshold that only this one reaches, and the set of the book.
    apart: [[[u64; 2]; 2]; 2],
    /// Wakes and reports of a checkpoint that was just made under a book which
    /// differs in its set alone, by the set that it was made under.
    changed: [[u64; 2]; 2],
}

impl WarmingCounts {
    /// Counts a call, before what it made is the latest.
    pub fn count(&mut self, question: &Question, answer: &Answer, latest: Option<&Made>) {
        let Question {
            call,
            book,
            checkpoint,
            ..
        } = *question;
        let number = answer.head[0];
        if number == TRAILER_WRONG {
            self.wrong_sets += u64::from(only_the_set_is_wrong(book));
        }
        if number != 0 {
            return;
        }
        if call == Call::Report as u8 {
            self.count_change(question, latest, 1);
            self.count_report(book, checkpoint);
        } else if call == Call::Wake as u8 {
            self.count_change(question, latest, 0);
        }
    }

    fn count_change(&mut self, question: &Question, latest: Option<&Made>, call: usize) {
        let is_changed = |made: &&Made| {
            made.checkpoint == question.checkpoint && differ_in_set_alone(&made.book, question.book)
        };
        if let Some(made) = latest.filter(is_changed) {
            self.changed[set_of(&made.book)][call] += 1;
        }
    }

    fn count_report(&mut self, bytes: &[u8], checkpoint: &[u8]) {
        let set = set_of(bytes);
        self.reports[set] += 1;
        let book = Book::read(bytes).expect("the report was given");
        let checkpoint = Checkpoint::read(checkpoint, &book).expect("the report was given");
        if let Some((alone, threshold)) = decided_apart(&checkpoint.ledgers) {
            self.apart[alone][threshold][set] += 1;
        }
    }

    pub fn table(&self) -> Vec<(&'static str, Rows)> {
        let reports = SETS.map(|set| format!("set {set}")).into_iter();
        let wrong_sets = ("byte 20 alone".to_string(), self.wrong_sets);
        vec![
            ("report of", reports.zip(self.reports).collect()),
            ("number 21 for", vec![wrong_sets]),
            ("only set 0 must report,", apart_rows(self.apart[0])),
            ("only set 1 must report,", apart_rows(self.apart[1])),
            ("set 0 changed to 1 before", changed_rows(self.changed[0])),
            ("set 1 changed to 0 before", changed_rows(self.changed[1])),
        ]
    }
}

fn apart_rows(counts: [[u64; 2]; 2]) -> Rows {
    let mut rows = Vec::new();
    for (threshold, by_set) in THRESHOLDS.iter().zip(counts) {
        for (set, count) in SETS.into_iter().zip(by_set) {
            rows.push((format!("{threshold}, told of {set}"), count));
        }
    }
    rows
}

fn changed_rows(counts: [u64; 2]) -> Rows {
    let names = CALLS_ON.map(String::from).into_iter();
    names.zip(counts).collect()
}

fn place_of_set(book: &[u8]) -> usize {
    book.len() - LINE + SET_PLACE
}

/// The set of a book that is sound.
fn set_of(book: &[u8]) -> usize {
    usize::from(book[place_of_set(book)])
}

fn only_the_set_is_wrong(book: &[u8]) -> bool {
    let place = place_of_set(book);
    let mut mended = book.to_vec();
    mended[place] = FIRST_SET;
    book[place] > SECOND_SET && Book::read(&mended).is_ok()
}

fn differ_in_set_alone(one: &[u8], other: &[u8]) -> bool {
    if one.len() != other.len() || set_of(one) == set_of(other) {
        return false;
    }
    let place = place_of_set(one);
    one[..place] == other[..place] && one[place + 1..] == other[place + 1..]
}

/// The one set under which the site must report, and the threshold that
/// decides: 25,000 t where T reaches it under that set alone, else 10,000 t.
fn decided_apart(ledgers: &Ledgers) -> Option<(usize, usize)> {
    let sets = [Warming::FIRST, Warming::SECOND];
    let must_report = sets.map(|set| Report::of(ledgers, set).must_report);
    let large = sets.map(|set| co2e(ledgers, set) >= 25_000 * NG_PER_TONNE);
    let apart = must_report[0] != must_report[1];
    apart.then(|| {
        (
            usize::from(must_report[1]),
            usize::from(large[0] != large[1]),
        )
    })
}
