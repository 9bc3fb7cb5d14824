//! What was compared of anodes by themselves: values of those that count, and what alone
//! sets others aside.

use std::ops::Range;

use second::anodes::tenths_of_ug;
use second::book::Book;
use second::bytes::{u16_at, u32_at};
use second::record::judge;

use super::repeats::asked::{impurities, number, unit, Asked};
use super::Rows;
use crate::draft::{put, DRY, LINE, MONITORED, NUMBER_PLACE};

type Row = (&'static str, fn(&Asked) -> bool);

const METAL: Range<usize> = 8..12;
const USE: Range<usize> = 12..16;
const IMPURITIES: Range<usize> = 16..22;

/// Asked of anodes that count.
const COUNTED: [Row; 29] = [
    ("without a monitor", |asked| asked.flags() == Some(0)),
    ("on a wet unit", |asked| asked.flags() == Some(MONITORED)),
    ("on a dry unit", |asked| {
        asked.flags() == Some(MONITORED | DRY)
    }),
    ("in a book without fuels", |asked| lists_no_fuel(asked.book)),
    ("remainder 0", |asked| remainder(asked) == Some(0)),
    ("remainder 2", |asked| remainder(asked) == Some(2)),
    ("remainder 4", |asked| remainder(asked) == Some(4)),
    ("remainder 6", |asked| remainder(asked) == Some(6)),
    ("remainder 8", |asked| remainder(asked) == Some(8)),
    ("more than 2^53 µg with a remainder", |asked| {
        tenths(asked) > 10 << 53 && !tenths(asked).is_multiple_of(10)
    }),
    ("metal 0", |asked| metal(asked) == 0),
    ("metal 1", |asked| metal(asked) == 1),
    ("metal 99,999,999", |asked| metal(asked) == 99_999_999),
    ("metal 100,000,000", |asked| metal(asked) == 100_000_000),
    ("use 0", |asked| net_use(asked) == 0),
    ("use 1", |asked| net_use(asked) == 1),
    ("use 999", |asked| net_use(asked) == 999),
    ("use 1,000", |asked| net_use(asked) == 1_000),
    ("the largest of all", |asked| {
        tenths(asked) == 3_664_000_000_000_000_000
    }),
    ("sulphur alone", |asked| has(asked) == [true, false, false]),
    ("ash alone", |asked| has(asked) == [false, true, false]),
    ("others alone", |asked| has(asked) == [false, false, true]),
    ("all three impurities", |asked| {
        has(asked) == [true, true, true]
    }),
    ("impurities 0", |asked| sum(asked) == 0),
    ("impurities 9,999", |asked| sum(asked) == 9_999),
    ("impurities 10,000 of one", |asked| {
        parts(asked).contains(&10_000)
    }),
    ("impurities 10,000 of three", |asked| {
        sum(asked) == 10_000 && has(asked) == [true, true, true]
    }),
    ("month 1", |asked| number(asked.line()) == 1),
    ("month 12", |asked| number(asked.line()) == 12),
];

/// Asked of anodes with a reason but 8.
const SET_ASIDE: [Row; 25] = [
    ("1, a fuel that is listed", |asked| {
        is_for(asked, 1, 4..6) && lists_the_fuel(asked)
    }),
    ("1, a fuel that isn't listed", |asked| {
        is_for(asked, 1, 4..6) && !lists_the_fuel(asked)
    }),
    ("1, the upper byte of a fuel number", |asked| {
        is_for(asked, 1, 5..6)
    }),
    ("1 before 2", |asked| {
        asked.reason == 1 && asked.flags().is_none()
    }),
    ("1 before 4", |asked| {
        asked.reason == 1 && tenths_of_ug(asked.line()).is_none()
    }),
    ("2", |asked| asked.reason == 2),
    ("2, unit 0", |asked| {
        asked.reason == 2 && unit(asked.line()) == 0
    }),
    ("2 before 4", |asked| {
        asked.reason == 2 && tenths_of_ug(asked.line()).is_none()
    }),
    ("4, month 0", |asked| is_month(asked, 0)),
    ("4, month 13", |asked| is_month(asked, 13)),
    ("4, month 257, whose lower byte is one", |asked| {
        is_month(asked, 257)
    }),
    ("4, month 65,535", |asked| is_month(asked, u16::MAX)),
    ("4, metal 100,000,001", |asked| {
        metal(asked) == 100_000_001 && is_for(asked, 4, METAL)
    }),
    ("4, metal 4,294,967,295", |asked| {
        metal(asked) == u32::MAX && is_for(asked, 4, METAL)
    }),
    ("4, use 1,001", |asked| {
        net_use(asked) == 1_001 && is_for(asked, 4, USE)
    }),
    ("4, use 65,536", |asked| {
        net_use(asked) == 65_536 && is_for(asked, 4, USE)
    }),
    ("4, use 4,294,967,295", |asked| {
        net_use(asked) == u32::MAX && is_for(asked, 4, USE)
    }),
    ("4, sulphur 10,001", |asked| {
        parts(asked) == [10_001, 0, 0] && is_for(asked, 4, IMPURITIES)
    }),
    ("4, ash 10,001", |asked| {
        parts(asked) == [0, 10_001, 0] && is_for(asked, 4, IMPURITIES)
    }),
    ("4, others 10,001", |asked| {
        parts(asked) == [0, 0, 10_001] && is_for(asked, 4, IMPURITIES)
    }),
    ("4, impurities 10,001 of three", |asked| {
        sum(asked) == 10_001
            && parts(asked).iter().all(|&part| part < 10_000)
            && is_for(asked, 4, IMPURITIES)
    }),
    ("4, impurities of 10,000 each", |asked| {
        parts(asked) == [10_000; 3] && is_for(asked, 4, IMPURITIES)
    }),
    ("4, impurities 65,536", |asked| {
        sum(asked) == 65_536 && is_for(asked, 4, IMPURITIES)
    }),
    ("4, impurities past 65,536 by up to 10,000", |asked| {
        (65_537..=75_536).contains(&sum(asked)) && is_for(asked, 4, IMPURITIES)
    }),
    ("4, impurities of 65,535 each", |asked| {
        parts(asked) == [65_535; 3] && is_for(asked, 4, IMPURITIES)
    }),
];

const FLAGS: usize = 8;
const MUST_BE_0: Range<usize> = 22..LINE;

#[derive(Default)]
pub struct AnodeCounts {
    counted: [u64; COUNTED.len()],
    set_aside: [u64; SET_ASIDE.len()],
    /// By bit: one flag alone.
    flags: [u64; FLAGS],
    /// By place: one byte alone that must be 0.
    must_be_0: [u64; MUST_BE_0.end - MUST_BE_0.start],
}

impl AnodeCounts {
    pub fn count(&mut self, asked: &Asked) {
        match asked.reason {
            0 => add(&mut self.counted, &COUNTED, asked),
            8 => {}
            _ => add(&mut self.set_aside, &SET_ASIDE, asked),
        }
        if asked.reason == 1 {
            self.count_form(asked);
        }
    }

    fn count_form(&mut self, asked: &Asked) {
        for (bit, count) in self.flags.iter_mut().enumerate() {
            let is_it = asked.line()[1] == 1 << bit;
            *count += u64::from(is_it && is_for(asked, 1, 1..2));
        }
        for (place, count) in MUST_BE_0.zip(&mut self.must_be_0) {
            let is_it = asked.line()[place] != 0;
            *count += u64::from(is_it && is_for(asked, 1, place..place + 1));
        }
    }

    pub fn table(&self) -> Vec<(&'static str, Rows)> {
        let named = |rows: &[Row], counts: &[u64]| -> Rows {
            let names = rows.iter().map(|(name, _)| name.to_string());
            names.zip(counts.iter().copied()).collect()
        };
        let flags = self.flags.iter().enumerate();
        let flags = flags.map(|(bit, count)| (format!("1, flag bit {bit}"), *count));
        let bytes = MUST_BE_0.zip(self.must_be_0);
        let bytes = bytes.map(|(place, count)| (format!("1, byte {place}"), count));
        vec![
            ("anodes counted,", named(&COUNTED, &self.counted)),
            ("anodes with reason", named(&SET_ASIDE, &self.set_aside)),
            ("anodes with reason", flags.chain(bytes).collect()),
        ]
    }
}

fn add(counts: &mut [u64], rows: &[Row], asked: &Asked) {
    for (count, (_, is_so)) in counts.iter_mut().zip(rows) {
        *count += u64::from(is_so(asked));
    }
}

/// Whether a record has this reason, and without these bytes counts.
fn is_for(asked: &Asked, reason: u8, bytes: Range<usize>) -> bool {
    asked.reason == reason && counts_with(asked, |line| line[bytes].fill(0))
}

fn is_month(asked: &Asked, month: u16) -> bool {
    let is_it = asked.reason == 4 && number(asked.line()) == month;
    is_it && counts_with(asked, |line| put(line, NUMBER_PLACE, &[1, 0]))
}

fn counts_with(asked: &Asked, mend: impl FnOnce(&mut [u8])) -> bool {
    let book = Book::read(asked.book).expect("the record was judged");
    let mut line = asked.line().to_vec();
    mend(&mut line);
    judge(&book, &line).is_ok()
}

fn metal(asked: &Asked) -> u32 {
    u32_at(asked.line(), METAL.start)
}

fn net_use(asked: &Asked) -> u32 {
    u32_at(asked.line(), USE.start)
}

fn parts(asked: &Asked) -> [u32; 3] {
    impurities(asked.line())
}

/// Which of the impurities there are.
fn has(asked: &Asked) -> [bool; 3] {
    parts(asked).map(|part| part > 0)
}

fn sum(asked: &Asked) -> u32 {
    parts(asked).iter().sum()
}

fn tenths(asked: &Asked) -> u64 {
    tenths_of_ug(asked.line()).expect("the record counts")
}

fn remainder(asked: &Asked) -> Option<u64> {
    let tenths = tenths(asked);
    (tenths > 0).then_some(tenths % 10)
}

fn lists_no_fuel(book: &[u8]) -> bool {
    let trailer = &book[book.len() - LINE..];
    u32_at(trailer, 12) as usize == book.len() - LINE
}

fn lists_the_fuel(asked: &Asked) -> bool {
    let book = Book::read(asked.book).expect("the record was judged");
    book.fuel(u16_at(asked.line(), 4)).is_some()
}
