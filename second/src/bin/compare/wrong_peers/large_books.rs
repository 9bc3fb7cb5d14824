//! Programs that are wrong about books longer than full ones alone.

mod counts;
mod lengths;
mod lines;
mod repeats;

pub use counts::*;
pub use lengths::*;
pub use lines::*;
pub use repeats::*;

use crate::draft::FULL_BOOK;

/// So many records are more than 16 bits count.
const PAST_16_BITS: usize = 65_536;

fn is_large(book: &[u8]) -> bool {
    book.len() > FULL_BOOK
}
