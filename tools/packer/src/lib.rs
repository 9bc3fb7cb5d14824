//! A book as text for people and as the bytes of docs/FORMAT.md, each made from the other; and in
//! words, why a book is refused or some of its records are set aside.

mod book;
mod bytes;
mod explain;
mod fuel;
mod line;
mod method;
mod parse;
mod ranges;
mod reasons;
mod record;
mod record_bytes;
mod repeats;
mod single;
mod verdict;
mod words;
mod write;

pub use bytes::Refusal;
pub use explain::{explain, Explanation, Named};
pub use parse::TextFault;

/// Gives the bytes of the book that a text describes.
pub fn pack(text: &[u8]) -> Result<Vec<u8>, TextFault> {
    parse::parse(text).map(|text| bytes::encode(&text.book))
}

/// Gives the one canonical text of a sound book.
pub fn unpack(book: &[u8]) -> Result<String, Refusal> {
    bytes::decode(book).map(|book| write::text(&book))
}
