//! Programs that are wrong about the flags of units.

use second::answer::{answer, Answer, Frame};
use second::book::Book;
use second::bytes::u32_at;
use second::record::judge;

use super::records::judging;
use crate::draft::{DRY, FUEL_RECORD, LINE, MONITORED};

const UNIT_LINES_WRONG: u8 = 22;
const FUEL_LINES_WRONG: u8 = 23;

/// The book with other flags in its unit lines, if there are any.
fn with_flags(book: &[u8], other: impl Fn(u8) -> u8) -> Vec<u8> {
    let mut changed = book.to_vec();
    let trailer = book.len().saturating_sub(LINE);
    let start_at = |place| u32_at(&book[trailer..], place) as usize;
    if book.len() >= LINE {
        let lines = changed.get_mut(start_at(8)..start_at(12).min(trailer));
        let units = lines.into_iter().flat_map(|lines| lines.chunks_mut(LINE));
        units
            .filter_map(|line| line.get_mut(2))
            .for_each(|flags| *flags = other(*flags));
    }
    changed
}

/// Answers as if a book had other flags.
fn flagged(frame: &Frame, other: impl Fn(u8) -> u8) -> Answer {
    answer(&Frame {
        book: &with_flags(frame.book, other),
        ..*frame
    })
}

fn dry_alone_becomes(other: u8) -> impl Fn(u8) -> u8 {
    move |flags| match flags {
        DRY => other,
        _ => flags,
    }
}

pub fn takes_a_dry_flag_alone_for_no_monitor(frame: &Frame) -> Answer {
    flagged(frame, dry_alone_becomes(0))
}

pub fn takes_a_dry_flag_alone_for_a_monitor(frame: &Frame) -> Answer {
    flagged(frame, dry_alone_becomes(MONITORED | DRY))
}

pub fn overlooks_flags_above_bit_1(frame: &Frame) -> Answer {
    flagged(frame, |flags| flags & (MONITORED | DRY))
}

/// As before there were dry units.
pub fn refuses_the_dry_flag(frame: &Frame) -> Answer {
    flagged(frame, |flags| match flags {
        0 | MONITORED => flags,
        _ => u8::MAX,
    })
}

/// For 23, before the 22 of that flag.
pub fn minds_fuel_lines_before_the_dry_flag(frame: &Frame) -> Answer {
    let answered = answer(frame);
    let mended = flagged(frame, dry_alone_becomes(MONITORED | DRY));
    match (answered.head[0], mended.head[0]) {
        (UNIT_LINES_WRONG, FUEL_LINES_WRONG) => mended,
        _ => answered,
    }
}

/// Since its flags are not 1; its hours are judged rightly.
pub fn chooses_a_method_for_fuel_records_of_a_dry_unit(frame: &Frame) -> Answer {
    let without_dry = with_flags(frame.book, |flags| match flags {
        MONITORED => flags,
        _ => 0,
    });
    judging(frame, |book, line| {
        let other = Book::read(&without_dry).expect("the book was read");
        match line[0] {
            FUEL_RECORD => judge(&other, line),
            _ => judge(book, line),
        }
    })
}
