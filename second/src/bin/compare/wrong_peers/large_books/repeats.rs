//! Which of the earlier records of a large book an hour or anodes are held against.

use std::collections::HashMap;

use second::answer::{Answer, Frame};
use second::record::{judge, Reason};

use super::super::records::judging_ranges;
use super::PAST_16_BITS;
use crate::draft::{ANODES, FULL_BOOK, HOUR, LINE};

/// Of the earlier records in which one stands, only those count of whose place, and of
/// that of the later one, `stands` says so.
fn standing_at(frame: &Frame, stands: impl Fn(usize, usize) -> bool) -> Answer {
    judging_ranges(frame, |book, range| {
        let mut places: HashMap<[u8; 5], Vec<usize>> = HashMap::new();
        let mut judged = Vec::new();
        for (place, line) in book.records().take(range.end).enumerate() {
            let key = [line[0], line[2], line[3], line[6], line[7]];
            let earlier = places.entry(key).or_default();
            if range.contains(&place) {
                let is_once = [HOUR, ANODES].contains(&line[0]);
                let is_repeated = is_once && earlier.iter().any(|&first| stands(first, place));
                judged.push(judge(book, line).and_then(|addition| match is_repeated {
                    true => Err(Reason::Repeated),
                    false => Ok(addition),
                }));
            }
            earlier.push(place);
        }
        judged
    })
}

pub fn looks_back_over_65_536_records(frame: &Frame) -> Answer {
    standing_at(frame, |first, later| later - first <= PAST_16_BITS)
}

/// As if there were no room for more.
pub fn remembers_the_records_of_a_full_book_alone(frame: &Frame) -> Answer {
    standing_at(frame, |first, _| first < FULL_BOOK / LINE)
}

/// As if it stood for none.
pub fn overlooks_record_65_535(frame: &Frame) -> Answer {
    standing_at(frame, |first, _| first != PAST_16_BITS - 1)
}

/// Where the lower half of a place is 0, as in the first record.
pub fn overlooks_record_65_536(frame: &Frame) -> Answer {
    standing_at(frame, |first, _| first != PAST_16_BITS)
}

/// A record is before another only if it is by the lower half of its place.
pub fn orders_places_by_16_bits(frame: &Frame) -> Answer {
    standing_at(frame, |first, later| {
        first % PAST_16_BITS < later % PAST_16_BITS
    })
}
