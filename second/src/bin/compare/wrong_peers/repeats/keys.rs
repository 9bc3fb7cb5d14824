//! What of a record is held against those before it.

use second::answer::{Answer, Frame};
use second::bytes::u16_at;

use super::{is_of, key, repeating};
use crate::draft::MOISTURE_PLACE;
use crate::repeats::Kind;

/// Records of a kind told apart by something else than their unit and number.
pub(super) fn keyed_of<K: PartialEq>(
    frame: &Frame,
    kind: Kind,
    wrong: impl Fn(&[u8]) -> K,
) -> Answer {
    repeating(frame, kind, |place| {
        let own = wrong(place.line());
        let mut of_kind = place.earlier().iter().filter(|line| is_of(line, kind));
        of_kind.any(|line| wrong(line) == own)
    })
}

fn keyed<K: PartialEq>(frame: &Frame, wrong: impl Fn(&[u8]) -> K) -> Answer {
    keyed_of(frame, Kind::Hours, wrong)
}

pub fn overlooks_the_unit_of_a_repeat(frame: &Frame) -> Answer {
    keyed(frame, |line| u16_at(line, 6))
}

pub fn overlooks_the_number_of_a_repeat(frame: &Frame) -> Answer {
    keyed(frame, |line| u16_at(line, 2))
}

pub fn drops_the_upper_byte_of_the_unit(frame: &Frame) -> Answer {
    keyed(frame, |line| [line[2], line[6], line[7]])
}

pub fn drops_the_lower_byte_of_the_unit(frame: &Frame) -> Answer {
    keyed(frame, |line| [line[3], line[6], line[7]])
}

pub fn drops_the_upper_byte_of_the_number(frame: &Frame) -> Answer {
    keyed(frame, |line| [line[2], line[3], line[6]])
}

pub fn drops_the_lower_byte_of_the_number(frame: &Frame) -> Answer {
    keyed(frame, |line| [line[2], line[3], line[7]])
}

/// As an hour's 13 bits would have it, if 8,784 did not need a fourteenth.
pub fn keeps_thirteen_bits_of_the_number(frame: &Frame) -> Answer {
    keyed(frame, |line| (u16_at(line, 2), u16_at(line, 6) % 8_192))
}

pub fn adds_unit_and_number_up(frame: &Frame) -> Answer {
    keyed(frame, |line| {
        let (unit, number) = key(line);
        u32::from(unit) + u32::from(number)
    })
}

/// A row in which the hour after a unit's last is the next one's first, whether or not
/// there is such an hour.
pub fn puts_all_hours_in_one_row(frame: &Frame) -> Answer {
    keyed(frame, |line| {
        let (unit, number) = key(line);
        8_784 * u32::from(unit) + u32::from(number)
    })
}

/// That is, compares bytes 2 to 7 in one piece.
pub fn compares_the_fuel_number_too(frame: &Frame) -> Answer {
    keyed(frame, |line| line[2..8].to_vec())
}

pub fn compares_the_readings_too(frame: &Frame) -> Answer {
    keyed(frame, |line| (key(line), line[8..16].to_vec()))
}

pub fn compares_the_moisture_too(frame: &Frame) -> Answer {
    keyed(frame, |line| (key(line), u16_at(line, MOISTURE_PLACE)))
}

pub fn compares_whole_records(frame: &Frame) -> Answer {
    keyed(frame, |line| line.to_vec())
}
