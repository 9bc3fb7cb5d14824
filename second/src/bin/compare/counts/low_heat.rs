//! What was compared of low heat values: those that count, and those that are
//! the one thing wrong with their record.

use second::answer::Answer;
use second::book::Book;
use second::bytes::{u16_at, u32_at};
use second::record::judge;

use super::Rows;
use crate::draft::{put, HEAT_IS_LOW, HEAT_MEASURED, MOST_LOW_HEAT, NATURAL_GAS};

/// Those that a record with a low value can have.
const METHODS: [u8; 3] = [2, 3, 4];

#[derive(Clone, Copy, Debug, PartialEq, Eq)]
enum Fault {
    NoHeat,
    OtherClass,
    TooGreat,
    Zero,
}

const FAULTS: [(Fault, &str); 4] = [
    (Fault::NoHeat, "without heat, reason 1"),
    (Fault::OtherClass, "of a class other than 1, reason 4"),
    (Fault::TooGreat, "past 180,000, reason 4"),
    (Fault::Zero, "of 0, reason 4"),
];

#[derive(Default)]
pub struct LowHeatCounts {
    by_method: [u64; METHODS.len()],
    halves: u64,
    by_fault: [u64; FAULTS.len()],
}

impl LowHeatCounts {
    /// Counts a fuel record of a book, if it is flagged to have a low value.
    pub fn count(&mut self, book: &[u8], line: &[u8], answer: &Answer) {
        if line[1] & HEAT_IS_LOW == 0 {
            return;
        }
        let [_, reason, method, ..] = answer.head;
        if reason == 0 {
            super::add_at(&mut self.by_method, &METHODS, method);
            self.halves += u64::from(111 * u32_at(line, 12) % 100 == 50);
        } else if let Some(fault) = only_fault(book, line, reason) {
            self.by_fault[fault as usize] += 1;
        }
    }

    pub fn rows(&self) -> Rows {
        let methods = METHODS.map(|method| format!("under method {method}"));
        let mut rows: Rows = methods.into_iter().zip(self.by_method).collect();
        rows.push(("whose half went up".to_string(), self.halves));
        rows.extend(FAULTS.map(|(fault, name)| (name.to_string(), self.by_fault[fault as usize])));
        rows
    }
}

/// What is wrong with the low value of a record that has a reason, if the
/// record doesn't have that reason once it is mended.
fn only_fault(book: &[u8], line: &[u8], reason: u8) -> Option<Fault> {
    let book = Book::read(book).expect("the record was judged");
    let fault = fault(&book, line)?;
    let has_it_still = |found| found as u8 == reason;
    let mended = judge(&book, &fault.mended(line));
    (!mended.is_err_and(has_it_still)).then_some(fault)
}

fn fault(book: &Book, line: &[u8]) -> Option<Fault> {
    if line[1] & HEAT_MEASURED == 0 {
        return Some(Fault::NoHeat);
    }
    let class = book.fuel(u16_at(line, 4))?.class;
    match u32_at(line, 12) {
        0 => Some(Fault::Zero),
        1..=MOST_LOW_HEAT => (class != NATURAL_GAS).then_some(Fault::OtherClass),
        _ => Some(Fault::TooGreat),
    }
}

impl Fault {
    /// The record without the fault.
    fn mended(self, line: &[u8]) -> Vec<u8> {
        let mut mended = line.to_vec();
        match self {
            Fault::NoHeat | Fault::OtherClass => mended[1] &= !HEAT_IS_LOW,
            Fault::TooGreat | Fault::Zero => put(&mut mended, 12, &1u32.to_le_bytes()),
        }
        mended
    }
}

#[cfg(test)]
mod tests {
    use super::*;
    use crate::sample::small_book_with_low_heat;

    /// Flags, unit, fuel (1 natural gas, 2 biomass) and heat of record 0.
    #[test]
    fn faults_are_told_only_where_they_decide() {
        let records = [
            ([4, 1, 1], 0, Some(Fault::NoHeat)),
            ([4, 9, 1], 0, Some(Fault::NoHeat)),
            ([4, 1, 1], 1, None),  // Heat bytes without their flag.
            ([12, 1, 1], 0, None), // An unknown flag.
            ([5, 1, 2], 180_000, Some(Fault::OtherClass)),
            ([5, 1, 2], 180_001, None), // Two faults.
            ([5, 1, 2], 0, None),
            ([5, 9, 2], 180_000, None), // No such unit.
            ([5, 1, 9], 180_000, None), // No such fuel.
            ([5, 1, 1], 180_001, Some(Fault::TooGreat)),
            ([5, 1, 1], u32::MAX, Some(Fault::TooGreat)),
            ([5, 1, 1], 0, Some(Fault::Zero)),
            ([13, 1, 1], 0, None),
        ];
        for ([flags, unit, fuel], heat, expected) in records {
            let mut draft = small_book_with_low_heat();
            let line = &mut draft.records[0];
            [line[1], line[2], line[4]] = [flags, unit, fuel];
            put(line, 12, &heat.to_le_bytes());
            let book = draft.bytes();
            let reason = second::answer::one_record(&book, 0)[1];
            let told = only_fault(&book, &draft.records[0], reason);
            assert_eq!(told, expected, "flags {flags}, {unit}, {fuel}, {heat}");
        }
    }
}
