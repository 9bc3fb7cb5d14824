//! Programs that are wrong about anodes by themselves.

mod answers;
mod masses;
mod reasons;

pub use answers::*;
pub use masses::*;
pub use reasons::*;

use second::answer::{Answer, Frame};
use second::book::Book;
use second::bytes::{u16_at, u32_at};
use second::record::{judge, Judged};

use super::records::judging;
use crate::draft::{ANODES, IMPURITY_PLACES};

/// Anode records judged wrongly.
fn of_anodes(frame: &Frame, wrong: impl Fn(&Book, &[u8]) -> Judged) -> Answer {
    judging(frame, |book, line| match line[0] {
        ANODES => wrong(book, line),
        _ => judge(book, line),
    })
}

/// What they become is judged in their stead.
fn edited(frame: &Frame, wrong: impl Fn(&mut [u8])) -> Answer {
    of_anodes(frame, |book, line| {
        let mut line = line.to_vec();
        wrong(&mut line);
        judge(book, &line)
    })
}

fn impurities(line: &[u8]) -> [u64; 3] {
    IMPURITY_PLACES.map(|place| u64::from(u16_at(line, place)))
}

/// Of anodes.
fn grams(line: &[u8]) -> u64 {
    u64::from(u32_at(line, 8)) * u64::from(u32_at(line, 12))
}
