//! What was compared of moisture: hours that count with it, those that it alone
//! sets aside, and unit lines that nothing but a flag makes wrong.

use std::ops::{Range, RangeInclusive};

use second::answer::Answer;
use second::book::Book;
use second::bytes::{u16_at, u32_at};
use second::record::judge;

use super::Rows;
use crate::draft::{put, DRY, LINE, MOISTURE_PLACE, MONITORED};

/// Hours that are told apart.
struct Class {
    name: &'static str,
    /// Those of its unit, if it is listed.
    flags: Option<u8>,
    moisture: RangeInclusive<u16>,
    reason: u8,
}

const fn class(
    name: &'static str,
    flags: Option<u8>,
    moisture: RangeInclusive<u16>,
    reason: u8,
) -> Class {
    Class {
        name,
        flags,
        moisture,
        reason,
    }
}

const UNLISTED: Option<u8> = None;
const PLAIN: Option<u8> = Some(0);
const WET: Option<u8> = Some(MONITORED);
const DRY_ONE: Option<u8> = Some(MONITORED | DRY);

const CLASSES: [Class; 17] = [
    class("0 on a dry unit", DRY_ONE, 0..=0, 0),
    class("1 on a dry unit", DRY_ONE, 1..=1, 0),
    class("2 to 499 on a dry unit", DRY_ONE, 2..=499, 0),
    class("500 on a dry unit", DRY_ONE, 500..=500, 0),
    class("501 to 998 on a dry unit", DRY_ONE, 501..=998, 0),
    class("999 on a dry unit", DRY_ONE, 999..=999, 0),
    class("1,000 on a dry unit", DRY_ONE, 1_000..=1_000, 0),
    class("1,001 on a dry unit, reason 4", DRY_ONE, 1_001..=1_001, 4),
    class(
        "past it on a dry unit, reason 4",
        DRY_ONE,
        1_002..=65_534,
        4,
    ),
    class(
        "65,535 on a dry unit, reason 4",
        DRY_ONE,
        65_535..=65_535,
        4,
    ),
    class("0 on a wet unit", WET, 0..=0, 0),
    class("to 1,000 on a wet unit, reason 1", WET, 1..=1_000, 1),
    class("past 1,000 on a wet unit, reason 1", WET, 1_001..=65_535, 1),
    class("0 without a monitor, reason 5", PLAIN, 0..=0, 5),
    class("to 1,000 without a monitor, reason 1", PLAIN, 1..=1_000, 1),
    class(
        "past 1,000 without a monitor, reason 1",
        PLAIN,
        1_001..=65_535,
        1,
    ),
    class("on a unit not listed, reason 2", UNLISTED, 1..=65_535, 2),
];

/// What mends the flags of a unit that are wrong in one way alone.
type Mending = fn(u8) -> u8;

const FLAGS: [(&str, Mending); 2] = [
    ("a dry flag without a monitor", |flags| match flags {
        DRY => MONITORED | DRY,
        _ => flags,
    }),
    ("a flag above bit 1", |flags| flags & (MONITORED | DRY)),
];

#[derive(Default)]
pub struct MoistureCounts {
    hours: [u64; CLASSES.len()],
    flags: [u64; FLAGS.len()],
}

impl MoistureCounts {
    /// Counts an hour of a book.
    pub fn count_hour(&mut self, book: &[u8], line: &[u8], answer: &Answer) {
        let reason = answer.head[1];
        if let Some(place) = class_of(book, line, reason) {
            self.hours[place] += 1;
        }
    }

    /// Counts a book whose unit lines are wrong.
    pub fn count_unit_lines(&mut self, book: &[u8]) {
        for (count, (_, mending)) in self.flags.iter_mut().zip(FLAGS) {
            *count += u64::from(is_mended(book, mending));
        }
    }

    pub fn table(&self) -> Vec<(&'static str, Rows)> {
        let hours = CLASSES.map(|class| class.name.to_string());
        let flags = FLAGS.map(|(name, _)| name.to_string());
        vec![
            ("moisture", hours.into_iter().zip(self.hours).collect()),
            ("number 22 for", flags.into_iter().zip(self.flags).collect()),
        ]
    }
}

/// The place in `CLASSES` of an hour. Where moisture sets it aside, nothing else
/// may do so for the same reason.
fn class_of(book: &[u8], line: &[u8], reason: u8) -> Option<usize> {
    let flags = flags_of(book, u16_at(line, 2));
    let moisture = u16_at(line, MOISTURE_PLACE);
    let is_of = |class: &Class| {
        class.reason == reason && class.flags == flags && class.moisture.contains(&moisture)
    };
    let place = CLASSES.iter().position(is_of)?;
    let is_not_alone = [1, 4].contains(&reason) && has_it_still(book, line, reason);
    (!is_not_alone).then_some(place)
}

/// Whether an hour has this reason without its moisture too.
fn has_it_still(book: &[u8], line: &[u8], reason: u8) -> bool {
    let book = Book::read(book).expect("the record was judged");
    let mut without = line.to_vec();
    put(&mut without, MOISTURE_PLACE, &[0, 0]);
    judge(&book, &without).is_err_and(|found| found as u8 == reason)
}

/// Where the unit lines of a book are whose trailer is right.
fn unit_lines(book: &[u8]) -> Range<usize> {
    let trailer = &book[book.len() - LINE..];
    let [start, end] = [8, 12].map(|place| u32_at(trailer, place) as usize);
    start..end
}

/// Of a unit, if it is listed.
pub fn flags_of(book: &[u8], number: u16) -> Option<u8> {
    let mut units = book[unit_lines(book)].chunks(LINE);
    let unit = units.find(|unit| u16_at(unit, 0) == number);
    unit.map(|unit| unit[2])
}

/// Whether unit lines that are wrong are right once their flags are mended.
fn is_mended(book: &[u8], mending: Mending) -> bool {
    let changes = |unit: &[u8]| mending(unit[2]) != unit[2];
    // Most have no such flag, and nothing to be read anew.
    if !book[unit_lines(book)].chunks(LINE).any(changes) {
        return false;
    }
    let mut mended = book.to_vec();
    for unit in mended[unit_lines(book)].chunks_mut(LINE) {
        unit[2] = mending(unit[2]);
    }
    Book::read(&mended).is_ok()
}

#[cfg(test)]
mod tests {
    use super::*;
    use crate::draft::with_moisture;
    use crate::sample::small_book;

    /// Unit (1 plain, 2 wet, 3 dry), moisture and byte 18 of the hour, and the
    /// name of its class.
    #[test]
    fn hours_are_told_apart_where_moisture_decides() {
        let hours = [
            (3, 0, 0, Some("0 on a dry unit")),
            (3, 1_000, 0, Some("1,000 on a dry unit")),
            (3, 1_001, 0, Some("1,001 on a dry unit, reason 4")),
            (3, 1_001, 1, None),
            (2, 0, 0, Some("0 on a wet unit")),
            (2, 1, 0, Some("to 1,000 on a wet unit, reason 1")),
            (2, 1, 1, None),
            (2, 1_001, 0, Some("past 1,000 on a wet unit, reason 1")),
            (1, 0, 0, Some("0 without a monitor, reason 5")),
            (1, 1, 0, Some("to 1,000 without a monitor, reason 1")),
            (9, 1, 0, Some("on a unit not listed, reason 2")),
            (9, 0, 0, None),
        ];
        for (unit, moisture, byte_18, expected) in hours {
            let mut draft = small_book();
            let mut line = with_moisture(draft.records[4], moisture);
            (line[2], line[18]) = (unit, byte_18);
            draft.records[4] = line;
            let book = draft.bytes();
            let reason = second::answer::one_record(&book, 4)[1];
            let told = class_of(&book, &line, reason).map(|place| CLASSES[place].name);
            assert_eq!(told, expected, "{unit}, {moisture}, {byte_18}");
        }
    }

    #[test]
    fn a_flag_is_told_where_it_alone_is_wrong() {
        let books = [(2, [1, 0]), (4, [0, 1]), (7, [0, 1]), (6, [0, 0])];
        for (flags, expected) in books {
            let mut draft = small_book();
            draft.units[0][2] = flags;
            let mut counts = MoistureCounts::default();
            counts.count_unit_lines(&draft.bytes());
            assert_eq!(counts.flags, expected, "{flags}");
        }
    }
}
