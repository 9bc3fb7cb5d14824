//! Analysed gas taken for something that a unit has once, or for what another record
//! repeats.

use second::answer::{Answer, Frame};
use second::record::{judge, Reason};

use super::{judging_places, key};
use crate::draft::{ANALYSED_GAS, ANODES, FUEL_RECORD, HOUR};

/// Records of a kind are repeated after those of another of which `wrong` says so; hours
/// and anodes are also seen rightly.
fn after(frame: &Frame, kind: u8, other_kind: u8, wrong: fn(&[u8], &[u8]) -> bool) -> Answer {
    judging_places(frame, |place| {
        let addition = judge(place.book, place.line())?;
        let line = place.line();
        let is_it = |other: &&[u8]| other[0] == other_kind && wrong(other, line);
        let is_repeated = line[0] == kind && place.earlier().iter().any(is_it);
        match is_repeated || place.is_among(place.earlier()) {
            true => Err(Reason::Repeated),
            false => Ok(addition),
        }
    })
}

fn has_its_key(one: &[u8], other: &[u8]) -> bool {
    key(one) == key(other)
}

pub fn takes_a_months_second_analysed_gas_for_a_repeat(frame: &Frame) -> Answer {
    after(frame, ANALYSED_GAS, ANALYSED_GAS, has_its_key)
}

pub fn takes_the_same_analysed_gas_for_a_repeat(frame: &Frame) -> Answer {
    after(frame, ANALYSED_GAS, ANALYSED_GAS, |one, other| one == other)
}

pub fn takes_a_months_analysed_gas_of_one_fuel_for_a_repeat(frame: &Frame) -> Answer {
    after(frame, ANALYSED_GAS, ANALYSED_GAS, |one, other| {
        one[2..8] == other[2..8]
    })
}

pub fn takes_analysed_gas_after_fuel_for_a_repeat(frame: &Frame) -> Answer {
    after(frame, ANALYSED_GAS, FUEL_RECORD, has_its_key)
}

pub fn takes_fuel_after_analysed_gas_for_a_repeat(frame: &Frame) -> Answer {
    after(frame, FUEL_RECORD, ANALYSED_GAS, has_its_key)
}

pub fn takes_analysed_gas_after_an_hour_for_a_repeat(frame: &Frame) -> Answer {
    after(frame, ANALYSED_GAS, HOUR, has_its_key)
}

pub fn takes_an_hour_after_analysed_gas_for_a_repeat(frame: &Frame) -> Answer {
    after(frame, HOUR, ANALYSED_GAS, has_its_key)
}

pub fn takes_analysed_gas_after_anodes_for_a_repeat(frame: &Frame) -> Answer {
    after(frame, ANALYSED_GAS, ANODES, has_its_key)
}

pub fn takes_anodes_after_analysed_gas_for_a_repeat(frame: &Frame) -> Answer {
    after(frame, ANODES, ANALYSED_GAS, has_its_key)
}
