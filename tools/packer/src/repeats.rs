//! Which earlier record a record repeats: docs/RULES.md, "Reasons", 8.

use std::collections::HashMap;

use crate::book::Book;
use crate::reasons::Account;
use crate::record_bytes::Once;

/// The first record of each hour, and of each month's anodes, whatever became of it. They are found
/// in one pass: looking back from each of the repeats that a long book may have takes many seconds.
pub struct Firsts(HashMap<Once, usize>);

impl Firsts {
    pub fn of(book: &Book) -> Firsts {
        let mut firsts = HashMap::new();
        for (i, record) in book.records().iter().enumerate() {
            if let Some(once) = Once::of(record) {
                firsts.entry(once).or_insert(i);
            }
        }
        Firsts(firsts)
    }

    /// Names what the record at this index repeats. None if no record before it is of the same.
    pub fn repeated(&self, i: usize, book: &Book, places: &[String]) -> Option<Account> {
        let once = Once::of(&book.records()[i])?;
        let first = *self.0.get(&once).filter(|&&first| first < i)?;
        let place = places
            .get(first)
            .map_or(String::new(), |at| format!(" at {at}"));
        let (sent, what, number) = match once {
            Once::Hour { unit, hour } => (format!("hour {hour} of unit {unit}"), "hour", "hour"),
            Once::Anodes { unit, month } => (
                format!("anodes of unit {unit} for month {month}"),
                "month's anodes",
                "month",
            ),
        };
        Some(Account {
            why: format!("record {first}{place} has {sent} too"),
            remedy: format!(
                "keep the right record of this {what} and take the others out, or correct the unit \
                 or the {number}"
            ),
        })
    }
}
