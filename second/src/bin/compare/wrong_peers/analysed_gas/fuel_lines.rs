//! Which molar volumes a fuel line may have.

use std::cell::RefCell;
use std::collections::HashMap;

use second::answer::{answer, Answer, Call, Frame};
use second::book::Book;
use second::bytes::u32_at;
use second::lines::GAS;
use second::record::judge;

use super::{of_gas, with_fuels};
use crate::draft::{put, LEAST_MVC, MOST_MVC, MVC_PLACE};

const UNIT_LINES_WRONG: u8 = 22;
const FUEL_LINES_WRONG: u8 = 23;

/// Answers as if fuel lines had other molar volumes, by their kind.
fn with_volumes(frame: &Frame, other: impl Fn(u8, u32) -> u32) -> Answer {
    let changed = with_fuels(frame.book, |fuel| {
        let mvc = other(fuel[2], u32_at(fuel, MVC_PLACE));
        put(fuel, MVC_PLACE, &mvc.to_le_bytes());
    });
    answer(&Frame {
        book: &changed,
        ..*frame
    })
}

/// One value is taken for another.
fn taken(frame: &Frame, value: u32, other: u32) -> Answer {
    with_volumes(frame, |_, mvc| if mvc == value { other } else { mvc })
}

/// As before there was any.
pub fn knows_no_molar_volume(frame: &Frame) -> Answer {
    with_volumes(frame, |_, mvc| if mvc > 0 { 1 } else { 0 })
}

pub fn lets_molar_volumes_reach_down_to_19_999(frame: &Frame) -> Answer {
    taken(frame, LEAST_MVC - 1, LEAST_MVC)
}

pub fn lets_molar_volumes_reach_27_001(frame: &Frame) -> Answer {
    taken(frame, MOST_MVC + 1, MOST_MVC)
}

pub fn refuses_molar_volume_20_000(frame: &Frame) -> Answer {
    taken(frame, LEAST_MVC, 1)
}

pub fn refuses_molar_volume_27_000(frame: &Frame) -> Answer {
    taken(frame, MOST_MVC, 1)
}

pub fn takes_molar_volume_1(frame: &Frame) -> Answer {
    taken(frame, 1, LEAST_MVC)
}

pub fn asks_for_a_molar_volume_of_every_fuel(frame: &Frame) -> Answer {
    taken(frame, 0, 1)
}

pub fn asks_for_a_molar_volume_of_every_gas(frame: &Frame) -> Answer {
    with_volumes(frame, |kind, mvc| match (kind, mvc) {
        (GAS, 0) => 1,
        _ => mvc,
    })
}

pub fn refuses_a_molar_volume_of_what_is_no_gas(frame: &Frame) -> Answer {
    with_volumes(frame, |kind, mvc| match (kind, mvc) {
        (GAS, _) | (_, 0) => mvc,
        _ => 1,
    })
}

/// Whatever it is.
pub fn overlooks_the_molar_volume_of_what_is_no_gas(frame: &Frame) -> Answer {
    with_volumes(frame, |kind, mvc| if kind == GAS { mvc } else { 0 })
}

/// That is, takes it for none.
pub fn overlooks_molar_volumes_out_of_range(frame: &Frame) -> Answer {
    with_volumes(frame, |_, mvc| {
        match (LEAST_MVC..=MOST_MVC).contains(&mvc) {
            true => mvc,
            false => 0,
        }
    })
}

pub fn asks_for_no_least_molar_volume(frame: &Frame) -> Answer {
    with_volumes(frame, |_, mvc| match mvc {
        1..LEAST_MVC => LEAST_MVC,
        _ => mvc,
    })
}

pub fn asks_for_no_greatest_molar_volume(frame: &Frame) -> Answer {
    with_volumes(frame, |_, mvc| mvc.min(MOST_MVC))
}

pub fn reads_the_molar_volume_from_two_bytes(frame: &Frame) -> Answer {
    with_volumes(frame, |_, mvc| mvc % 65_536)
}

pub fn reads_the_molar_volume_upper_byte_first(frame: &Frame) -> Answer {
    with_volumes(frame, |_, mvc| mvc.swap_bytes())
}

pub fn overlooks_the_bytes_after_the_molar_volume(frame: &Frame) -> Answer {
    let changed = with_fuels(frame.book, |fuel| fuel[24..].fill(0));
    answer(&Frame {
        book: &changed,
        ..*frame
    })
}

fn without_volumes(frame: &Frame) -> Answer {
    with_volumes(frame, |_, _| 0)
}

/// 22 for it.
pub fn tells_a_wrong_molar_volume_of_the_unit_lines(frame: &Frame) -> Answer {
    let mut answered = answer(frame);
    if answered.head[0] == FUEL_LINES_WRONG && without_volumes(frame).head[0] != FUEL_LINES_WRONG {
        answered.head[0] = UNIT_LINES_WRONG;
    }
    answered
}

/// Only where a record takes it: it is then out of range.
pub fn judges_the_molar_volume_by_record(frame: &Frame) -> Answer {
    match answer(frame).head[0] {
        FUEL_LINES_WRONG => without_volumes(frame),
        _ => answer(frame),
    }
}

thread_local! {
    /// Checkpoints that a program has made, each with its book. Every program runs in a
    /// thread of its own.
    static MADE_OF: RefCell<HashMap<Vec<u8>, Vec<u8>>> = RefCell::default();
}

/// Where it has made the checkpoint.
pub fn keeps_the_molar_volumes_of_the_checkpoints_book(frame: &Frame) -> Answer {
    let made_of = MADE_OF.with_borrow(|known| known.get(frame.checkpoint).cloned());
    let answered = of_gas(frame, |book, line| {
        let before = made_of.as_ref().and_then(|bytes| Book::read(bytes).ok());
        match before {
            Some(before) if frame.call == Call::Wake => judge(&before, line),
            _ => judge(book, line),
        }
    });
    if answered.head[0] == 0 && matches!(frame.call, Call::Fresh | Call::Wake) {
        let (checkpoint, book) = (answered.output.clone(), frame.book.to_vec());
        MADE_OF.with_borrow_mut(|known| known.insert(checkpoint, book));
    }
    answered
}
