//! What anodes are set aside for.

use second::answer::{Answer, Frame};
use second::book::Book;
use second::bytes::{u16_at, u32_at};
use second::record::{judge, Addition, Judged, Reason};

use super::{edited, grams, impurities, of_anodes};
use crate::draft::{put, IMPURITY_PLACES, NUMBER_PLACE};

pub fn knows_no_anodes(frame: &Frame) -> Answer {
    of_anodes(frame, |_, _| Err(Reason::Form))
}

pub fn overlooks_the_flags_of_anodes(frame: &Frame) -> Answer {
    edited(frame, |line| line[1] = 0)
}

pub fn overlooks_the_fuel_number_of_anodes(frame: &Frame) -> Answer {
    edited(frame, |line| line[4..6].fill(0))
}

/// Which is then not listed, or else let pass.
pub fn looks_for_the_fuel_that_anodes_name(frame: &Frame) -> Answer {
    of_anodes(frame, |book, line| {
        let number = u16_at(line, 4);
        let mut without = line.to_vec();
        without[4..6].fill(0);
        match judge(book, &without) {
            Err(reason @ (Reason::Form | Reason::UnitNotListed)) => Err(reason),
            _ if number > 0 && book.fuel(number).is_none() => Err(Reason::FuelNotListed),
            judged => judged,
        }
    })
}

pub fn overlooks_the_bytes_after_the_impurities(frame: &Frame) -> Answer {
    edited(frame, |line| line[22..].fill(0))
}

/// As if the impurities were as wide as the amounts.
pub fn overlooks_the_two_bytes_after_the_impurities(frame: &Frame) -> Answer {
    edited(frame, |line| line[22..24].fill(0))
}

pub fn overlooks_the_last_bytes_of_anodes(frame: &Frame) -> Answer {
    edited(frame, |line| line[24..].fill(0))
}

/// What a record would be with its fields in range.
fn in_range(book: &Book, line: &[u8]) -> Judged {
    let mut mended = line.to_vec();
    put(&mut mended, NUMBER_PLACE, &[1, 0]);
    mended[8..22].fill(0);
    judge(book, &mended)
}

/// 4 before 2.
pub fn asks_for_the_range_of_anodes_before_the_unit(frame: &Frame) -> Answer {
    of_anodes(frame, |book, line| {
        let is_in_range = second::anodes::tenths_of_ug(line).is_some()
            && (1..=12).contains(&u16_at(line, NUMBER_PLACE));
        match judge(book, line) {
            Err(Reason::UnitNotListed) if !is_in_range => Err(Reason::OutOfRange),
            judged => judged,
        }
    })
}

/// 2 before 1.
pub fn asks_for_the_unit_of_anodes_before_the_form(frame: &Frame) -> Answer {
    of_anodes(frame, |book, line| {
        let unit = book.unit(u16_at(line, 2)).ok_or(Reason::UnitNotListed);
        unit.and_then(|_| judge(book, line))
    })
}

pub fn takes_a_fuel_number_of_anodes_for_out_of_range(frame: &Frame) -> Answer {
    of_anodes(frame, |book, line| {
        let mut without = line.to_vec();
        without[4..6].fill(0);
        match (judge(book, line), judge(book, &without)) {
            (Err(Reason::Form), Ok(_)) => Err(Reason::OutOfRange),
            (_, judged) => judged,
        }
    })
}

/// Anodes with a value out of range that `believes` takes, with this carbon.
fn believing(
    frame: &Frame,
    believes: impl Fn(&[u8]) -> bool,
    carbon: impl Fn([u64; 3]) -> u64,
) -> Answer {
    of_anodes(frame, |book, line| {
        if judge(book, line) != Err(Reason::OutOfRange) || !believes(line) {
            return judge(book, line);
        }
        in_range(book, line).map(|addition| Addition {
            co2_ug: (3_664 * grams(line) * carbon(impurities(line)) + 5) / 10,
            ..addition
        })
    })
}

fn left(impurities: [u64; 3]) -> u64 {
    10_000u64.saturating_sub(impurities.iter().sum())
}

fn is_month(line: &[u8]) -> bool {
    (1..=12).contains(&u16_at(line, NUMBER_PLACE))
}

fn are_amounts(line: &[u8]) -> bool {
    u32_at(line, 8) <= 100_000_000 && u32_at(line, 12) <= 1_000
}

/// Whose sum may then be as much as 300 percent.
pub fn asks_each_impurity_alone(frame: &Frame) -> Answer {
    let each_is_right = |line: &[u8]| impurities(line).iter().all(|&part| part <= 10_000);
    believing(
        frame,
        |line| is_month(line) && are_amounts(line) && each_is_right(line),
        left,
    )
}

fn sum_in_16_bits(impurities: [u64; 3]) -> u64 {
    impurities.iter().sum::<u64>() % 65_536
}

/// And each impurity only by it.
pub fn adds_impurities_up_in_16_bits(frame: &Frame) -> Answer {
    believing(
        frame,
        |line| is_month(line) && are_amounts(line) && sum_in_16_bits(impurities(line)) <= 10_000,
        |impurities| 10_000 - sum_in_16_bits(impurities),
    )
}

pub fn lets_impurities_reach_10_001(frame: &Frame) -> Answer {
    let sum = |line: &[u8]| impurities(line).iter().sum::<u64>();
    believing(
        frame,
        |line| is_month(line) && are_amounts(line) && sum(line) == 10_001,
        left,
    )
}

pub fn takes_month_0(frame: &Frame) -> Answer {
    believing(
        frame,
        |line| are_amounts(line) && line[NUMBER_PLACE..8] == [0, 0] && is_whole(line),
        left,
    )
}

pub fn takes_month_13(frame: &Frame) -> Answer {
    believing(
        frame,
        |line| are_amounts(line) && line[NUMBER_PLACE..8] == [13, 0] && is_whole(line),
        left,
    )
}

pub fn lets_metal_reach_100_000_001(frame: &Frame) -> Answer {
    believing(
        frame,
        |line| {
            let is_one_past = u32_at(line, 8) == 100_000_001 && u32_at(line, 12) <= 1_000;
            is_month(line) && is_one_past && is_whole(line)
        },
        left,
    )
}

pub fn lets_use_reach_1_001(frame: &Frame) -> Answer {
    believing(
        frame,
        |line| {
            let is_one_past = u32_at(line, 8) <= 100_000_000 && u32_at(line, 12) == 1_001;
            is_month(line) && is_one_past && is_whole(line)
        },
        left,
    )
}

fn is_whole(line: &[u8]) -> bool {
    impurities(line).iter().sum::<u64>() <= 10_000
}

/// Anodes that count but for a value at the end of its range.
fn doubting(frame: &Frame, doubts: impl Fn(&[u8]) -> bool) -> Answer {
    of_anodes(frame, |book, line| {
        let judged = judge(book, line)?;
        match doubts(line) {
            true => Err(Reason::OutOfRange),
            false => Ok(judged),
        }
    })
}

pub fn asks_for_some_metal(frame: &Frame) -> Answer {
    doubting(frame, |line| u32_at(line, 8) == 0)
}

pub fn asks_for_some_use(frame: &Frame) -> Answer {
    doubting(frame, |line| u32_at(line, 12) == 0)
}

pub fn asks_for_some_carbon(frame: &Frame) -> Answer {
    doubting(frame, |line| left(impurities(line)) == 0)
}

pub fn lets_metal_reach_only_99_999_999(frame: &Frame) -> Answer {
    doubting(frame, |line| u32_at(line, 8) == 100_000_000)
}

pub fn lets_use_reach_only_999(frame: &Frame) -> Answer {
    doubting(frame, |line| u32_at(line, 12) == 1_000)
}

pub fn knows_eleven_months(frame: &Frame) -> Answer {
    doubting(frame, |line| u16_at(line, NUMBER_PLACE) == 12)
}

/// So that use past 65,535 is what is left of it.
pub fn reads_use_from_two_bytes(frame: &Frame) -> Answer {
    edited(frame, |line| line[14..16].fill(0))
}

pub fn reads_the_month_from_one_byte(frame: &Frame) -> Answer {
    edited(frame, |line| line[7] = 0)
}

pub fn reads_impurities_upper_byte_first(frame: &Frame) -> Answer {
    edited(frame, |line| {
        for place in IMPURITY_PLACES {
            line.swap(place, place + 1);
        }
    })
}
