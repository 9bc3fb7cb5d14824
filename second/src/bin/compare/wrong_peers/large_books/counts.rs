//! Counts, lengths and figures that have fewer bits than a large book asks for.

use second::answer::{answer, Answer, Call, Frame, NO_SUCH_RECORD};
use second::book::Book;
use second::bytes::{u32_at, u64_at};
use second::report::Report;

use super::super::calls::reporting;
use super::{is_large, PAST_16_BITS};
use crate::draft::{put, FULL_BOOK, LINE};
use crate::histories::made_up::{LEDGERS, TONNES_PER_RECORD};

const LENGTH: usize = 80;

/// Without the upper half of a number of a wake's checkpoint.
fn writing_16_bits(frame: &Frame, place: usize) -> Answer {
    let mut answered = answer(frame);
    if frame.call == Call::Wake && answered.head[0] == 0 {
        answered.output[place + 2..place + 4].fill(0);
    }
    answered
}

pub fn writes_the_records_done_in_16_bits(frame: &Frame) -> Answer {
    writing_16_bits(frame, 0)
}

pub fn writes_the_records_set_aside_in_16_bits(frame: &Frame) -> Answer {
    writing_16_bits(frame, 4)
}

pub fn writes_the_first_set_aside_in_16_bits(frame: &Frame) -> Answer {
    writing_16_bits(frame, 8)
}

/// Of a checkpoint that is sound.
pub fn goes_on_from_the_lower_half_of_the_place(frame: &Frame) -> Answer {
    if frame.call != Call::Wake || answer(frame).head[0] != 0 {
        return answer(frame);
    }
    let mut checkpoint = frame.checkpoint.to_vec();
    checkpoint[2..4].fill(0);
    answer(&Frame {
        checkpoint: &checkpoint,
        ..*frame
    })
}

/// The records gone through, done, and before the first set aside.
pub fn tells_counts_in_16_bits(frame: &Frame) -> Answer {
    let mut answered = answer(frame);
    if frame.call != Call::Record {
        answered.head[6..8].fill(0);
    }
    answered
}

pub fn tells_the_records_left_in_16_bits(frame: &Frame) -> Answer {
    let mut answered = answer(frame);
    if frame.call == Call::Left {
        answered.head[6..8].fill(0);
    }
    answered
}

pub fn goes_through_65_535_records_at_most(frame: &Frame) -> Answer {
    let most = PAST_16_BITS as u32 - 1;
    let argument = match frame.call {
        Call::Wake => frame.argument.min(most),
        _ => frame.argument,
    };
    answer(&Frame { argument, ..*frame })
}

/// As if the book ended there.
pub fn knows_65_536_records(frame: &Frame) -> Answer {
    let mut answered = answer(frame);
    let is_past = frame.call == Call::Record && frame.argument >= PAST_16_BITS as u32;
    if is_past && answered.head[0] == 0 {
        answered.head.fill(0);
        answered.head[2] = NO_SUCH_RECORD;
    }
    answered
}

/// A checkpoint whose length is right in its lower half.
pub fn asks_16_bits_of_the_length(frame: &Frame) -> Answer {
    let mut checkpoint = frame.checkpoint.to_vec();
    let length = (frame.book.len() as u32).to_le_bytes();
    if checkpoint.len() > LENGTH + 4 && checkpoint[LENGTH..LENGTH + 2] == length[..2] {
        put(&mut checkpoint, LENGTH, &length);
    }
    answer(&Frame {
        checkpoint: &checkpoint,
        ..*frame
    })
}

/// And takes a checkpoint with more for unsound.
pub fn believes_the_tonnes_of_a_full_book_alone(frame: &Frame) -> Answer {
    let mut answered = answer(frame);
    let most = TONNES_PER_RECORD * (FULL_BOOK / LINE) as u64;
    let is_past = |&place: &usize| u64_at(frame.checkpoint, place) > most;
    if answered.head[0] == 0 && frame.call == Call::Report && LEDGERS.iter().any(is_past) {
        answered.head.fill(0);
        answered.head[0] = 31;
    }
    answered
}

/// Enough for any full book: 2^48 kg are 68,719 times the largest record.
pub fn tells_figures_in_48_bits(frame: &Frame) -> Answer {
    reporting(frame, |ledgers, warming| {
        let report = Report::of(ledgers, warming);
        Report {
            figures: report.figures.map(|figure| figure % (1 << 48)),
            ..report
        }
    })
}

/// Which rounds at most a few kg away, and nothing in a full book's tonnes.
pub fn tells_figures_in_double_precision(frame: &Frame) -> Answer {
    reporting(frame, |ledgers, warming| {
        let report = Report::of(ledgers, warming);
        Report {
            figures: report.figures.map(|figure| figure as f64 as u64),
            ..report
        }
    })
}

/// The starts of a book's lines, of which the trailer has 32 bits.
pub fn reads_starts_in_16_bits(frame: &Frame) -> Answer {
    if !is_large(frame.book) || Book::read(frame.book).is_err() {
        return answer(frame);
    }
    let mut book = frame.book.to_vec();
    let trailer = book.len() - LINE;
    for place in [trailer + 8, trailer + 12] {
        let start = u32_at(&book, place) % (1 << 16);
        put(&mut book, place, &start.to_le_bytes());
    }
    answer(&Frame {
        book: &book,
        ..*frame
    })
}
