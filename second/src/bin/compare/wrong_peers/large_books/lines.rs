//! Lines that are looked for by too few bits of their place.

use second::answer::{answer, Answer, Call, Frame};
use second::earlier_records::EarlierRecords;
use second::record::{judge, Reason};

use super::super::records::judging_ranges;
use super::PAST_16_BITS;
use crate::draft::{FULL_BOOK, LINE};

/// Wakes and single records, where so many lines come over and over.
fn over_and_over(frame: &Frame, lines: usize) -> Answer {
    judging_ranges(frame, |book, range| {
        let first_lines: Vec<&[u8]> = book.records().take(lines).collect();
        let mut earlier = EarlierRecords::default();
        let mut judged = Vec::new();
        for place in 0..range.end {
            let line = first_lines[place % lines];
            let is_repeated = earlier.go_through(line);
            if range.contains(&place) {
                judged.push(judge(book, line).and_then(|addition| match is_repeated {
                    true => Err(Reason::Repeated),
                    false => Ok(addition),
                }));
            }
        }
        judged
    })
}

pub fn finds_lines_by_16_bits_of_their_place(frame: &Frame) -> Answer {
    over_and_over(frame, PAST_16_BITS)
}

pub fn finds_lines_by_16_bits_of_their_byte(frame: &Frame) -> Answer {
    over_and_over(frame, FULL_BOOK / LINE)
}

pub fn tells_of_the_record_in_the_lower_half_of_the_index(frame: &Frame) -> Answer {
    let argument = match frame.call {
        Call::Record if frame.argument < u32::MAX => frame.argument % PAST_16_BITS as u32,
        _ => frame.argument,
    };
    answer(&Frame { argument, ..*frame })
}
