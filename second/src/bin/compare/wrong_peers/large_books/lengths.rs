//! Which books are too long, and how many lines they may list.

use second::answer::{answer, Answer, Call, Frame, HEAD};

use super::is_large;
use crate::draft::{FULL_BOOK, LINE, LONGEST_BOOK};

/// The answer to a book of the wrong length.
fn refused(frame: &Frame) -> Answer {
    let mut head = [0; HEAD];
    head[0] = 20;
    Answer {
        head,
        output: frame.output.to_vec(),
    }
}

/// Only books that `wrong` names have the wrong length.
fn refusing(frame: &Frame, wrong: impl Fn(&[u8]) -> bool) -> Answer {
    match wrong(frame.book) {
        true => refused(frame),
        false => answer(frame),
    }
}

pub fn takes_full_books_at_most(frame: &Frame) -> Answer {
    refusing(frame, is_large)
}

/// Though wakes go over large books, what they come to can't be told.
pub fn reports_on_full_books_at_most(frame: &Frame) -> Answer {
    refusing(frame, |book| frame.call == Call::Report && is_large(book))
}

pub fn tells_of_records_of_full_books_at_most(frame: &Frame) -> Answer {
    refusing(frame, |book| frame.call == Call::Record && is_large(book))
}

/// As if the limit were the first length that is too great.
pub fn refuses_the_longest_book(frame: &Frame) -> Answer {
    refusing(frame, |book| book.len() == LONGEST_BOOK)
}

/// The records of a line more, or of less than a line, are overlooked.
fn taking(frame: &Frame, wrong: impl Fn(usize) -> bool) -> Answer {
    let answered = answer(frame);
    let length = frame.book.len();
    if answered.head[0] != 20 || !wrong(length) {
        return answered;
    }
    let most = (length - length % LINE).min(LONGEST_BOOK);
    answer(&Frame {
        book: &frame.book[length - most..],
        ..*frame
    })
}

pub fn takes_a_line_more_than_the_longest_book(frame: &Frame) -> Answer {
    taking(frame, |length| length == LONGEST_BOOK + LINE)
}

pub fn takes_any_length_past_a_full_book(frame: &Frame) -> Answer {
    taking(frame, |length| (FULL_BOOK..LONGEST_BOOK).contains(&length))
}

/// Fresh starts of books that list more than 64 units or fuels.
pub fn lists_more_lines_in_a_large_book(frame: &Frame) -> Answer {
    let mut answered = answer(frame);
    let is_long_list = [22, 23].contains(&answered.head[0]);
    if is_long_list && is_large(frame.book) {
        answered.head[0] = 0;
    }
    answered
}
