//! What a wake sees of the records before it.

use std::cell::RefCell;
use std::collections::{HashMap, HashSet};

use second::answer::{answer, Answer, Call, Frame};
use second::earlier_records::EarlierRecords;
use second::record::{judge, Reason};

use super::super::records::judging_ranges;
use super::{is_of, key, repeating, Place};
use crate::draft::LINE;
use crate::repeats::Kind;

/// Up to this budget a program might look back in another way than past it.
const SMALL: usize = 3;

/// Records of earlier wakes are forgotten in the wakes that `wrong` names.
pub(super) fn forgetting(frame: &Frame, kind: Kind, wrong: impl Fn(&Place) -> bool) -> Answer {
    repeating(frame, kind, |place| {
        let seen = match wrong(place) {
            true => place.earlier_in_wake(),
            false => place.earlier(),
        };
        place.is_among(seen)
    })
}

pub fn forgets_the_hours_of_earlier_wakes(frame: &Frame) -> Answer {
    forgetting(frame, Kind::Hours, |_| true)
}

pub fn forgets_earlier_wakes_in_small_ones(frame: &Frame) -> Answer {
    forgetting(frame, Kind::Hours, |place| place.moved <= SMALL)
}

pub fn forgets_earlier_wakes_in_large_ones(frame: &Frame) -> Answer {
    forgetting(frame, Kind::Hours, |place| place.moved > SMALL)
}

pub fn overlooks_a_repeat_that_a_wake_begins_with(frame: &Frame) -> Answer {
    repeating(frame, Kind::Hours, |place| {
        let begins = place.call == Call::Wake && place.index == place.begun;
        !begins && place.is_among(place.earlier())
    })
}

/// That is, sees those before the wake alone.
pub fn overlooks_repeats_within_a_wake(frame: &Frame) -> Answer {
    repeating(frame, Kind::Hours, |place| match place.call {
        Call::Wake => place.is_among(&place.lines[..place.begun]),
        _ => place.is_among(place.earlier()),
    })
}

pub fn wakes_without_looking_back(frame: &Frame) -> Answer {
    repeating(frame, Kind::Hours, |place| {
        place.call != Call::Wake && place.is_among(place.earlier())
    })
}

pub fn tells_of_one_record_without_looking_back(frame: &Frame) -> Answer {
    repeating(frame, Kind::Hours, |place| {
        place.call == Call::Wake && place.is_among(place.earlier())
    })
}

pub fn knows_no_repeats(frame: &Frame) -> Answer {
    repeating(frame, Kind::Hours, |_| false)
}

thread_local! {
    /// Hours that a program has gone through. Every program runs in a thread of its
    /// own.
    static GONE_THROUGH: RefCell<HashSet<(u16, u16)>> = RefCell::default();
    /// Checkpoints that a program has made, each with its book.
    static MADE_OF: RefCell<HashMap<Vec<u8>, Vec<u8>>> = RefCell::default();
}

/// Wakes by the hours that were gone through in wakes before, and not by the book.
fn by_memory(frame: &Frame) -> Answer {
    if frame.call != Call::Wake {
        return answer(frame);
    }
    judging_ranges(frame, |book, range| {
        GONE_THROUGH.with_borrow_mut(|gone_through| {
            let mut earlier = EarlierRecords::before(book, range.start as u32);
            let lines = book.records().take(range.end).skip(range.start);
            let judged = lines.map(|line| {
                let stands = earlier.go_through(line);
                let is_known = match is_of(line, Kind::Hours) {
                    true => !gone_through.insert(key(line)),
                    false => stands,
                };
                judge(book, line).and_then(|addition| match is_known {
                    true => Err(Reason::Repeated),
                    false => Ok(addition),
                })
            });
            judged.collect()
        })
    })
}

pub fn keeps_the_hours_of_earlier_books(frame: &Frame) -> Answer {
    by_memory(frame)
}

/// And begins anew with a fresh start.
pub fn keeps_the_hours_of_the_wakes_before(frame: &Frame) -> Answer {
    if frame.call == Call::Fresh {
        GONE_THROUGH.with_borrow_mut(HashSet::clear);
    }
    by_memory(frame)
}

/// Where it has made the checkpoint.
pub fn looks_back_in_the_book_of_the_checkpoint(frame: &Frame) -> Answer {
    let made_of = MADE_OF.with_borrow(|known| known.get(frame.checkpoint).cloned());
    let answered = repeating(frame, Kind::Hours, |place| {
        let begun = place.begun;
        let before: Vec<&[u8]> = match &made_of {
            Some(book) if place.call == Call::Wake => book.chunks(LINE).take(begun).collect(),
            _ => place.lines[..begun].to_vec(),
        };
        place.is_among(&before) || place.is_among(&place.lines[begun..place.index])
    });
    if answered.head[0] == 0 && matches!(frame.call, Call::Fresh | Call::Wake) {
        let (checkpoint, book) = (answered.output.clone(), frame.book.to_vec());
        MADE_OF.with_borrow_mut(|known| known.insert(checkpoint, book));
    }
    answered
}
