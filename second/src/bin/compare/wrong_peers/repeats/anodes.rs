//! Anodes that stand in an earlier record: what tells them apart, which records they are
//! held against, and what is answered.

use second::answer::{Answer, Call, Frame};
use second::bytes::u16_at;
use second::lines::Monitor;
use second::record::{judge, Addition, Co2Ledger, Reason};

use super::answers::{asking_before, of_repeats};
use super::keys::keyed_of;
use super::standing::{of_kinds, standing_of, times_before, within};
use super::wakes::forgetting;
use super::{key, repeating};
use crate::draft::{ANODES, HOUR, IMPURITY_PLACES, NUMBER_PLACE, UNIT_PLACE};
use crate::repeats::Kind;

fn keyed<K: PartialEq>(frame: &Frame, wrong: impl Fn(&[u8]) -> K) -> Answer {
    keyed_of(frame, Kind::Anodes, wrong)
}

pub fn tells_anodes_by_the_month_alone(frame: &Frame) -> Answer {
    keyed(frame, |line| u16_at(line, NUMBER_PLACE))
}

pub fn tells_anodes_by_the_unit_alone(frame: &Frame) -> Answer {
    keyed(frame, |line| u16_at(line, UNIT_PLACE))
}

pub fn drops_the_upper_byte_of_the_anodes_unit(frame: &Frame) -> Answer {
    keyed(frame, |line| [line[2], line[6], line[7]])
}

pub fn adds_unit_and_month_up(frame: &Frame) -> Answer {
    keyed(frame, |line| {
        let (unit, month) = key(line);
        u32::from(unit) + u32::from(month)
    })
}

/// A row in which January comes after December of the unit before.
pub fn puts_all_months_in_one_row(frame: &Frame) -> Answer {
    keyed(frame, |line| {
        let (unit, month) = key(line);
        12 * u32::from(unit) + u32::from(month)
    })
}

/// Months that are out of range among them.
pub fn keeps_four_bits_of_the_month(frame: &Frame) -> Answer {
    keyed(frame, |line| (u16_at(line, UNIT_PLACE), line[6] & 0x0F))
}

pub fn compares_bytes_2_to_7_of_anodes(frame: &Frame) -> Answer {
    keyed(frame, |line| line[2..8].to_vec())
}

pub fn compares_metal_and_use_too(frame: &Frame) -> Answer {
    keyed(frame, |line| (key(line), line[8..16].to_vec()))
}

pub fn compares_the_impurities_too(frame: &Frame) -> Answer {
    keyed(frame, |line| {
        (key(line), IMPURITY_PLACES.map(|place| u16_at(line, place)))
    })
}

pub fn compares_whole_anode_records(frame: &Frame) -> Answer {
    keyed(frame, |line| line.to_vec())
}

pub fn takes_an_hour_for_the_anodes_of_its_number(frame: &Frame) -> Answer {
    of_kinds(frame, Kind::Anodes, |kind| [HOUR, ANODES].contains(&kind))
}

pub fn takes_anodes_for_the_hour_of_their_month(frame: &Frame) -> Answer {
    of_kinds(frame, Kind::Hours, |kind| [HOUR, ANODES].contains(&kind))
}

pub fn holds_anodes_against_records_of_any_kind(frame: &Frame) -> Answer {
    of_kinds(frame, Kind::Anodes, |_| true)
}

/// As if fuel of the month were the month's anodes.
pub fn holds_anodes_against_fuel_of_the_month(frame: &Frame) -> Answer {
    of_kinds(frame, Kind::Anodes, |kind| [1, ANODES].contains(&kind))
}

/// That is, of kinds 4 to 7.
pub fn asks_one_bit_of_the_anodes_kind(frame: &Frame) -> Answer {
    of_kinds(frame, Kind::Anodes, |kind| kind & 0b111 >= ANODES)
}

pub fn holds_anodes_against_those_that_counted(frame: &Frame) -> Answer {
    standing_of(frame, Kind::Anodes, |book, line| judge(book, line).is_ok())
}

pub fn holds_anodes_against_those_in_good_form(frame: &Frame) -> Answer {
    standing_of(frame, Kind::Anodes, |book, line| {
        judge(book, line) != Err(Reason::Form)
    })
}

pub fn holds_anodes_against_those_in_range(frame: &Frame) -> Answer {
    standing_of(frame, Kind::Anodes, |book, line| {
        judge(book, line) != Err(Reason::OutOfRange)
    })
}

pub fn overlooks_repeated_anodes_on_monitored_units(frame: &Frame) -> Answer {
    standing_of(frame, Kind::Anodes, |book, line| {
        book.unit(u16_at(line, UNIT_PLACE))
            .is_some_and(|unit| unit.monitor == Monitor::None)
    })
}

/// As if there were no twelfth.
pub fn knows_eleven_months_that_are_repeated(frame: &Frame) -> Answer {
    standing_of(frame, Kind::Anodes, |_, line| {
        u16_at(line, NUMBER_PLACE) < 12
    })
}

pub fn compares_neighbouring_anodes_alone(frame: &Frame) -> Answer {
    within(frame, Kind::Anodes, 1)
}

/// As many as a unit has months, so a repeat across other units is lost.
pub fn looks_back_over_twelve_records(frame: &Frame) -> Answer {
    within(frame, Kind::Anodes, 12)
}

pub fn lets_the_third_of_anodes_count(frame: &Frame) -> Answer {
    repeating(frame, Kind::Anodes, |place| times_before(place) == 1)
}

pub fn sets_the_first_anodes_of_a_pair_aside(frame: &Frame) -> Answer {
    repeating(frame, Kind::Anodes, |place| place.is_among(place.later()))
}

pub fn knows_no_repeated_anodes(frame: &Frame) -> Answer {
    repeating(frame, Kind::Anodes, |_| false)
}

pub fn forgets_the_anodes_of_earlier_wakes(frame: &Frame) -> Answer {
    forgetting(frame, Kind::Anodes, |_| true)
}

pub fn tells_of_one_anode_record_without_looking_back(frame: &Frame) -> Answer {
    repeating(frame, Kind::Anodes, |place| {
        place.call == Call::Wake && place.is_among(place.earlier())
    })
}

/// 8 before 4.
pub fn asks_for_repeated_anodes_before_the_range(frame: &Frame) -> Answer {
    asking_before(frame, Kind::Anodes, &[Reason::OutOfRange])
}

pub fn asks_for_repeated_anodes_before_the_unit(frame: &Frame) -> Answer {
    asking_before(
        frame,
        Kind::Anodes,
        &[Reason::UnitNotListed, Reason::OutOfRange],
    )
}

pub fn asks_for_repeated_anodes_before_the_form(frame: &Frame) -> Answer {
    let later = [Reason::Form, Reason::UnitNotListed, Reason::OutOfRange];
    asking_before(frame, Kind::Anodes, &later)
}

pub fn takes_repeated_anodes_for_out_of_range(frame: &Frame) -> Answer {
    of_repeats(frame, Kind::Anodes, |judged| {
        judged.and(Err(Reason::OutOfRange))
    })
}

pub fn lets_repeated_anodes_count_for_nothing(frame: &Frame) -> Answer {
    of_repeats(frame, Kind::Anodes, |judged| {
        judged.map(|addition| Addition {
            ledger: Co2Ledger::None,
            co2_ug: 0,
            ..addition
        })
    })
}
