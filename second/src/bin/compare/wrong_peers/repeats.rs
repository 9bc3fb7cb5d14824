//! Programs that are wrong about hours, or about anodes, that stand in an earlier record.

mod analysed_gas;
mod anodes;
mod answers;
mod keys;
mod standing;
mod wakes;

pub use analysed_gas::*;
pub use anodes::*;
pub use answers::*;
pub use keys::*;
pub use standing::*;
pub use wakes::*;

use second::answer::{Answer, Call, Frame};
use second::book::Book;
use second::bytes::u16_at;
use second::record::{judge, Judged, Reason};

use super::records::judging_ranges;
use crate::draft::{NUMBER_PLACE, UNIT_PLACE};
use crate::repeats::{Kind, KINDS};

/// A record and what a program may see from there.
struct Place<'a> {
    book: &'a Book<'a>,
    lines: &'a [&'a [u8]],
    index: usize,
    call: Call,
    /// The first record that the call goes through, and how many it does.
    begun: usize,
    moved: usize,
}

impl<'a> Place<'a> {
    fn line(&self) -> &'a [u8] {
        self.lines[self.index]
    }

    fn earlier(&self) -> &'a [&'a [u8]] {
        &self.lines[..self.index]
    }

    fn later(&self) -> &'a [&'a [u8]] {
        &self.lines[self.index + 1..]
    }

    /// Those of the same wake; a single record is looked at rightly.
    fn earlier_in_wake(&self) -> &'a [&'a [u8]] {
        match self.call {
            Call::Wake => &self.lines[self.begun..self.index],
            _ => self.earlier(),
        }
    }

    fn is_among(&self, lines: &[&[u8]]) -> bool {
        lines.iter().any(|other| is_same(other, self.line()))
    }

    fn is_of(&self, kind: Kind) -> bool {
        is_of(self.line(), kind)
    }
}

fn is_of(line: &[u8], kind: Kind) -> bool {
    line[0] == kind.byte_0()
}

fn key(line: &[u8]) -> (u16, u16) {
    (u16_at(line, UNIT_PLACE), u16_at(line, NUMBER_PLACE))
}

fn is_same(one: &[u8], other: &[u8]) -> bool {
    let is_of_one_kind = |kind| is_of(one, kind) && is_of(other, kind);
    key(one) == key(other) && KINDS.into_iter().any(is_of_one_kind)
}

/// Each record of a job judged at its place.
fn judging_places(frame: &Frame, wrong: impl Fn(&Place) -> Judged) -> Answer {
    judging_ranges(frame, |book, range| {
        let lines: Vec<&[u8]> = book.records().collect();
        let at = |index| {
            wrong(&Place {
                book,
                lines: &lines,
                index,
                call: frame.call,
                begun: range.start,
                moved: range.len(),
            })
        };
        range.clone().map(at).collect()
    })
}

/// Records of a kind that have no reason by themselves are repeated where `wrong` says
/// so; those of the other kind are seen rightly.
fn repeating(frame: &Frame, kind: Kind, wrong: impl Fn(&Place) -> bool) -> Answer {
    judging_places(frame, |place| {
        let addition = judge(place.book, place.line())?;
        let is_repeated = match place.is_of(kind) {
            true => wrong(place),
            false => place.is_among(place.earlier()),
        };
        match is_repeated {
            true => Err(Reason::Repeated),
            false => Ok(addition),
        }
    })
}
