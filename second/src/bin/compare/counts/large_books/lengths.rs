//! What was compared of lengths of books: those at the limits by each call, and those near
//! them that are no multiples of 32.

use super::super::{Question, Rows};

const WRONG_LENGTH: u8 = 20;
const CALLS: [&str; 4] = ["fresh", "wake", "report", "one record"];

const ACCEPTED: [(usize, &str); 5] = [
    (65_504, "65,504 bytes"),
    (65_536, "65,536 bytes"),
    (65_568, "65,568 bytes"),
    (4_194_272, "4,194,272 bytes"),
    (4_194_304, "4,194,304 bytes"),
];

const REFUSED: [(usize, &str); 13] = [
    (65_503, "65,503 bytes"),
    (65_505, "65,505 bytes"),
    (65_535, "65,535 bytes"),
    (65_537, "65,537 bytes"),
    (65_567, "65,567 bytes"),
    (65_569, "65,569 bytes"),
    (4_194_271, "4,194,271 bytes"),
    (4_194_273, "4,194,273 bytes"),
    (4_194_303, "4,194,303 bytes"),
    (4_194_305, "4,194,305 bytes"),
    (4_194_335, "4,194,335 bytes"),
    (4_194_336, "4,194,336 bytes"),
    (4_194_337, "4,194,337 bytes"),
];

#[derive(Default)]
pub struct LengthCounts {
    accepted: [[u64; CALLS.len()]; ACCEPTED.len()],
    refused: [[u64; CALLS.len()]; REFUSED.len()],
}

impl LengthCounts {
    pub fn count(&mut self, question: &Question, number: u8) {
        let call = usize::from(question.call) - 1;
        let place = |lengths: &[(usize, &str)]| {
            let mut lengths = lengths.iter();
            lengths.position(|(length, _)| *length == question.book.len())
        };
        match number {
            WRONG_LENGTH => {
                if let Some(place) = place(&REFUSED) {
                    self.refused[place][call] += 1;
                }
            }
            _ => {
                if let Some(place) = place(&ACCEPTED) {
                    self.accepted[place][call] += 1;
                }
            }
        }
    }

    pub fn table(&self) -> Vec<(&'static str, Rows)> {
        vec![
            ("book of", rows(&ACCEPTED, &self.accepted)),
            ("number 20 for", rows(&REFUSED, &self.refused)),
        ]
    }
}

fn rows(lengths: &[(usize, &str)], counts: &[[u64; CALLS.len()]]) -> Rows {
    let mut rows = Vec::new();
    for ((_, length), by_call) in lengths.iter().zip(counts) {
        for (call, count) in CALLS.iter().zip(by_call) {
            rows.push((format!("{length}, {call}"), *count));
        }
    }
    rows
}
