//! Records that stand in a book more than once: hours, as after a radio gap, and the
//! anodes of a month.

use std::collections::HashSet;

use crate::book::Book;
use crate::bytes::u16_at;
use crate::record::{ANODES, MONITOR_HOUR};

/// Kind, unit and number of each hour and anode record among the records gone through,
/// "whether or not that earlier one was itself set aside": a record stands by its
/// byte 0 alone.
#[derive(Debug, Default)]
pub struct EarlierRecords {
    standing: HashSet<u64>,
}

impl EarlierRecords {
    /// Those of the records before `place`, from the book itself: a checkpoint
    /// tells nothing of them.
    pub fn before(book: &Book, place: u32) -> EarlierRecords {
        let lines = book.records().take(place as usize);
        let mut standing = HashSet::with_capacity(place as usize);
        standing.extend(lines.filter_map(kind_unit_and_number));
        EarlierRecords { standing }
    }

    /// Goes through the next record, and tells whether it is one that stands in one
    /// before it.
    pub fn go_through(&mut self, line: &[u8]) -> bool {
        let record = kind_unit_and_number(line);
        record.is_some_and(|record| !self.standing.insert(record))
    }
}

/// The same of one record alone, which needs no set: each record before its place is held
/// against it.
pub fn stands_before(book: &Book, place: u32, line: &[u8]) -> bool {
    let earlier = book.records().take(place as usize);
    let record = kind_unit_and_number(line);
    record.is_some()
        && earlier
            .map(kind_unit_and_number)
            .any(|other| other == record)
}

/// As one number. Month 7 and hour 7 of a unit are not the same, so the kind is in it.
fn kind_unit_and_number(line: &[u8]) -> Option<u64> {
    let kind = u64::from(line[0]);
    let [unit, number] = [2, 6].map(|place| u64::from(u16_at(line, place)));
    [MONITOR_HOUR, ANODES]
        .contains(&line[0])
        .then_some(kind << 32 | unit << 16 | number)
}

#[cfg(test)]
mod tests {
    use super::*;
    use crate::LINE;

    fn line(kind: u8, unit: u16, number: u16) -> [u8; LINE] {
        let mut line = [0xA5; LINE];
        line[0] = kind;
        line[2..4].copy_from_slice(&unit.to_le_bytes());
        line[6..8].copy_from_slice(&number.to_le_bytes());
        line
    }

    /// A book of nothing but these records.
    fn book_of(lines: &[[u8; LINE]]) -> Vec<u8> {
        let start = ((LINE * lines.len()) as u32).to_le_bytes();
        let mut trailer = [0; LINE];
        trailer[..6].copy_from_slice(b"STCB\x01\x00");
        trailer[8..12].copy_from_slice(&start);
        trailer[12..16].copy_from_slice(&start);
        trailer[16..18].copy_from_slice(&2010u16.to_le_bytes());
        [lines.concat(), trailer.to_vec()].concat()
    }

    /// All orders of five records out of eight that share kinds, units and numbers, and
    /// sets that begin at any of them.
    #[test]
    fn the_set_tells_what_going_through_one_by_one_tells() {
        let choices = [
            line(1, 1, 1),
            line(MONITOR_HOUR, 1, 1),
            line(MONITOR_HOUR, 1, 2),
            line(MONITOR_HOUR, 2, 1),
            line(ANODES, 1, 1),
            line(ANODES, 1, 2),
            line(ANODES, 2, 1),
            line(3, 1, 1),
        ];
        for order in 0..8usize.pow(5) {
            let lines = [0, 3, 6, 9, 12].map(|bits| choices[order >> bits & 7]);
            let bytes = book_of(&lines);
            let book = Book::read(&bytes).expect("the book is sound");
            let mut earlier = EarlierRecords::before(&book, order as u32 % 5);
            for (place, line) in (0..).zip(&lines).skip(order % 5) {
                let one_by_one = stands_before(&book, place, line);
                assert_eq!(earlier.go_through(line), one_by_one, "order {order:o}");
            }
        }
    }

    #[test]
    fn kind_unit_and_number_alone_tell_records_apart() {
        for (kind, other_kind) in [(MONITOR_HOUR, ANODES), (ANODES, MONITOR_HOUR)] {
            let mut earlier = EarlierRecords::default();
            let records = [
                (line(1, 1, 1), false),
                (line(other_kind, 1, 1), false),
                (line(kind, 1, 1), false),
                (line(3, 1, 1), false),
                (line(kind, 257, 1), false),
                (line(kind, 1, 257), false),
                (line(kind, 256, 1), false),
                (line(kind, 1, 256), false),
                (line(kind, 1, 1), true),
                (line(1, 1, 1), false),
                (line(other_kind, 257, 1), false),
                (line(other_kind, 1, 1), true),
                (line(kind, 1, 1), true),
                (line(kind, 257, 1), true),
            ];
            for (place, (line, stands)) in records.iter().enumerate() {
                let told = earlier.go_through(line);
                assert_eq!(told, *stands, "kind {kind}, record {place}");
            }
        }
    }

    #[test]
    fn no_other_byte_tells_records_apart() {
        for kind in [MONITOR_HOUR, ANODES] {
            let other_bytes = [1, 4, 5].into_iter().chain(8..LINE);
            for place in other_bytes {
                let mut earlier = EarlierRecords::default();
                let mut other = line(kind, 7, 8_784);
                earlier.go_through(&other);
                other[place] = 0;
                assert!(earlier.go_through(&other), "kind {kind}, byte {place}");
            }
        }
    }
}
