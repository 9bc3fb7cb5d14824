//! Programs that are wrong about the two sets of warming values.

use std::cell::RefCell;
use std::collections::HashMap;

use second::answer::{answer, Answer, Call, Frame, HEAD};
use second::ledger::NG_PER_TONNE;
use second::report::{co2e, Report};
use second::warming::Warming;

use super::calls::reporting;
use crate::draft::{FIRST_SET, LINE, SECOND_SET, SET_PLACE};
use crate::job::CHECKPOINT;

const PAIRED_25_WITH_310: Warming = Warming { ch4: 25, n2o: 310 };
const PAIRED_21_WITH_298: Warming = Warming { ch4: 21, n2o: 298 };

/// Reports by `taken` where the book names the set `named`.
fn taking(frame: &Frame, named: Warming, taken: Warming) -> Answer {
    reporting(frame, |ledgers, warming| {
        let wrong = if warming == named { taken } else { warming };
        Report::of(ledgers, wrong)
    })
}

pub fn pairs_25_with_310_in_the_first_set(frame: &Frame) -> Answer {
    taking(frame, Warming::FIRST, PAIRED_25_WITH_310)
}

pub fn pairs_25_with_310_in_the_second_set(frame: &Frame) -> Answer {
    taking(frame, Warming::SECOND, PAIRED_25_WITH_310)
}

pub fn pairs_21_with_298_in_the_first_set(frame: &Frame) -> Answer {
    taking(frame, Warming::FIRST, PAIRED_21_WITH_298)
}

pub fn pairs_21_with_298_in_the_second_set(frame: &Frame) -> Answer {
    taking(frame, Warming::SECOND, PAIRED_21_WITH_298)
}

pub fn takes_the_first_set_always(frame: &Frame) -> Answer {
    taking(frame, Warming::SECOND, Warming::FIRST)
}

pub fn takes_the_second_set_always(frame: &Frame) -> Answer {
    taking(frame, Warming::FIRST, Warming::SECOND)
}

/// Its CO2e is right.
pub fn decides_by_the_first_set(frame: &Frame) -> Answer {
    reporting(frame, |ledgers, warming| Report {
        must_report: Report::of(ledgers, Warming::FIRST).must_report,
        ..Report::of(ledgers, warming)
    })
}

/// Its decision is right.
pub fn tells_co2e_of_the_first_set(frame: &Frame) -> Answer {
    reporting(frame, |ledgers, warming| Report {
        must_report: Report::of(ledgers, warming).must_report,
        ..Report::of(ledgers, Warming::FIRST)
    })
}

/// That is, holds T of the first set against 25,000 t, and T of the book's set
/// against 10,000 t.
pub fn subtracts_biomass_by_the_first_set(frame: &Frame) -> Answer {
    reporting(frame, |ledgers, warming| {
        let is_large = co2e(ledgers, Warming::FIRST) >= 25_000 * NG_PER_TONNE;
        let subtracted = if is_large {
            0
        } else {
            ledgers.biomass.min(15_000 * NG_PER_TONNE)
        };
        Report {
            must_report: co2e(ledgers, warming) - subtracted >= 10_000 * NG_PER_TONNE,
            ..Report::of(ledgers, warming)
        }
    })
}

fn set_of(book: &[u8]) -> Option<u8> {
    let trailer = book.len().checked_sub(LINE)?;
    Some(book[trailer + SET_PLACE])
}

/// The answer to the same frame, had its book named this set.
fn answer_under(frame: &Frame, set: u8) -> Answer {
    let mut book = frame.book.to_vec();
    if let Some(trailer) = book.len().checked_sub(LINE) {
        book[trailer + SET_PLACE] = set;
    }
    answer(&Frame {
        book: &book,
        ..*frame
    })
}

/// As the second.
pub fn accepts_a_third_set(frame: &Frame) -> Answer {
    match set_of(frame.book) {
        Some(2) => answer_under(frame, SECOND_SET),
        _ => answer(frame),
    }
}

/// In the first byte that a checkpoint leaves 0 at its end, and reports by it.
pub fn keeps_the_set_in_the_checkpoint(frame: &Frame) -> Answer {
    const KEPT: usize = 86;
    let mut checkpoint = frame.checkpoint.to_vec();
    let mut set = set_of(frame.book).unwrap_or(FIRST_SET);
    let has_kept = frame.call != Call::Fresh && checkpoint.len() == CHECKPOINT;
    if has_kept && checkpoint[KEPT] <= SECOND_SET && set <= SECOND_SET {
        set = std::mem::take(&mut checkpoint[KEPT]);
    }
    let without_it = Frame {
        checkpoint: &checkpoint,
        ..*frame
    };
    let mut answered = answer_under(&without_it, set);
    if answered.head[0] == 0 && matches!(frame.call, Call::Fresh | Call::Wake) {
        answered.output[KEPT] = set;
    }
    answered
}

thread_local! {
    /// The checkpoints that a program has made, each with the set under which
    /// its job was begun. Every program runs in a thread of its own.
    static BEGUN_UNDER: RefCell<HashMap<Vec<u8>, u8>> = RefCell::default();
}

/// The set under which the job of an accepted call was begun, as far as it is
/// remembered.
fn begun_under(frame: &Frame, answered: &Answer) -> u8 {
    let own = set_of(frame.book).expect("the call was accepted");
    BEGUN_UNDER.with_borrow_mut(|known| {
        let begun = match frame.call {
            Call::Fresh => own,
            _ => known.get(frame.checkpoint).copied().unwrap_or(own),
        };
        if matches!(frame.call, Call::Fresh | Call::Wake) {
            known.insert(answered.output.clone(), begun);
        }
        begun
    })
}

pub fn reports_under_the_set_that_the_job_was_begun_with(frame: &Frame) -> Answer {
    let answered = answer(frame);
    if answered.head[0] != 0 || frame.call == Call::Record {
        return answered;
    }
    let begun = begun_under(frame, &answered);
    match frame.call {
        Call::Report => answer_under(frame, begun),
        _ => answered,
    }
}

/// That is, tells 31 where a book names another set than the job was begun
/// with.
pub fn ties_a_checkpoint_to_the_set(frame: &Frame) -> Answer {
    let mut answered = answer(frame);
    if answered.head[0] != 0 || frame.call == Call::Record {
        return answered;
    }
    if Some(begun_under(frame, &answered)) != set_of(frame.book) {
        answered.head = [0; HEAD];
        answered.head[0] = 31;
        answered.output = frame.output.to_vec();
    }
    answered
}
