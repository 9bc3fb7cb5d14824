//! What analysed gas is set aside for, and which reason comes first.

use second::answer::{Answer, Frame};
use second::book::Book;
use second::bytes::{u16_at, u32_at};
use second::lines::{Monitor, GAS};
use second::record::{judge, Addition, Co2Ledger, Judged, Reason};

use super::{edited, fuel_of, of_gas};
use crate::draft::{
    put, ANALYSED_GAS, CARBON_MEASURED, FUEL_RECORD, HEAT_IS_LOW, HEAT_MEASURED, WEIGHT_PLACE,
};

/// As before there was any.
pub fn knows_no_analysed_gas(frame: &Frame) -> Answer {
    of_gas(frame, |_, _| Err(Reason::Form))
}

/// Whose bytes from 20 on must be 0, and whose carbon has a flag.
pub fn takes_analysed_gas_for_a_fuel_record(frame: &Frame) -> Answer {
    edited(frame, |line| line[0] = FUEL_RECORD)
}

pub fn overlooks_the_carbon_flag_of_analysed_gas(frame: &Frame) -> Answer {
    edited(frame, |line| line[1] &= !CARBON_MEASURED)
}

pub fn asks_for_the_carbon_flag_of_analysed_gas(frame: &Frame) -> Answer {
    edited(frame, |line| line[1] ^= CARBON_MEASURED)
}

pub fn overlooks_flags_above_bit_2_of_analysed_gas(frame: &Frame) -> Answer {
    edited(frame, |line| line[1] &= 7)
}

pub fn overlooks_the_last_flag_of_analysed_gas(frame: &Frame) -> Answer {
    edited(frame, |line| line[1] &= 0x7F)
}

pub fn overlooks_a_low_flag_without_heat_of_analysed_gas(frame: &Frame) -> Answer {
    edited(frame, |line| {
        if line[1] == HEAT_IS_LOW {
            line[1] = 0;
        }
    })
}

/// That is, reads bits 0 and 2 where bit 2 alone is set.
pub fn takes_a_low_flag_of_analysed_gas_for_heat(frame: &Frame) -> Answer {
    edited(frame, |line| {
        if line[1] == HEAT_IS_LOW {
            line[1] |= HEAT_MEASURED;
        }
    })
}

pub fn knows_no_low_value_of_analysed_gas(frame: &Frame) -> Answer {
    edited(frame, |line| {
        if line[1] & HEAT_IS_LOW != 0 {
            line[1] = u8::MAX;
        }
    })
}

pub fn knows_no_heat_of_analysed_gas(frame: &Frame) -> Answer {
    edited(frame, |line| {
        if line[1] & HEAT_MEASURED != 0 {
            line[1] = u8::MAX;
        }
    })
}

pub fn overlooks_heat_of_analysed_gas_without_its_flag(frame: &Frame) -> Answer {
    edited(frame, |line| {
        if line[1] & HEAT_MEASURED == 0 {
            line[12..16].fill(0);
        }
    })
}

pub fn overlooks_the_bytes_after_the_weight(frame: &Frame) -> Answer {
    edited(frame, |line| line[24..].fill(0))
}

pub fn overlooks_the_last_bytes_of_analysed_gas(frame: &Frame) -> Answer {
    edited(frame, |line| line[28..].fill(0))
}

pub fn overlooks_the_byte_after_the_weight(frame: &Frame) -> Answer {
    edited(frame, |line| line[24] = 0)
}

/// Those with a reason are given another where `wrong` finds one.
fn instead(frame: &Frame, wrong: impl Fn(&Book, &[u8], Reason) -> Option<Reason>) -> Answer {
    of_gas(frame, |book, line| {
        judge(book, line).map_err(|reason| wrong(book, line, reason).unwrap_or(reason))
    })
}

fn is_analysable(book: &Book, line: &[u8]) -> bool {
    fuel_of(book, line).is_some_and(|fuel| fuel.kind == GAS && fuel.mvc > 0)
}

/// 2 before 1.
pub fn asks_for_the_unit_of_analysed_gas_before_the_form(frame: &Frame) -> Answer {
    instead(frame, |book, line, _| {
        let is_listed = book.unit(u16_at(line, 2)).is_some();
        (!is_listed).then_some(Reason::UnitNotListed)
    })
}

/// 3 before 2.
pub fn asks_for_the_fuel_before_the_unit_of_analysed_gas(frame: &Frame) -> Answer {
    instead(frame, |book, line, reason| {
        let is_late = reason == Reason::UnitNotListed && fuel_of(book, line).is_none();
        is_late.then_some(Reason::FuelNotListed)
    })
}

/// 4 before 2 and 3.
pub fn asks_for_the_weight_before_the_unit(frame: &Frame) -> Answer {
    instead(frame, |_, line, reason| {
        let is_early = [Reason::UnitNotListed, Reason::FuelNotListed].contains(&reason);
        let is_wrong = !(1..=200_000).contains(&u32_at(line, WEIGHT_PLACE));
        (is_early && is_wrong).then_some(Reason::OutOfRange)
    })
}

/// 4 before 1.
pub fn asks_for_the_molar_volume_before_the_form(frame: &Frame) -> Answer {
    instead(frame, |book, line, reason| {
        let is_known = fuel_of(book, line).is_some() && book.unit(u16_at(line, 2)).is_some();
        let is_early = reason == Reason::Form && is_known;
        (is_early && !is_analysable(book, line)).then_some(Reason::OutOfRange)
    })
}

/// 7 before 4.
pub fn asks_for_heat_before_the_range_of_analysed_gas(frame: &Frame) -> Answer {
    instead(frame, |book, line, reason| {
        let has_none =
            line[1] == 0 && fuel_of(book, line).is_some_and(|fuel| fuel.default_heat == 0);
        (reason == Reason::OutOfRange && has_none).then_some(Reason::NoHeatInUse)
    })
}

/// What is out of range for its fuel alone has another reason.
fn of_fuel(frame: &Frame, reason: Reason) -> Answer {
    instead(frame, |book, line, found| {
        let is_late = found == Reason::OutOfRange && !is_analysable(book, line);
        is_late.then_some(reason)
    })
}

pub fn takes_a_fuel_that_is_no_gas_for_unlisted(frame: &Frame) -> Answer {
    of_fuel(frame, Reason::FuelNotListed)
}

pub fn takes_analysed_oil_for_bad_form(frame: &Frame) -> Answer {
    of_fuel(frame, Reason::Form)
}

pub fn permits_no_method_without_a_molar_volume(frame: &Frame) -> Answer {
    of_fuel(frame, Reason::NoPermittedMethod)
}

pub fn takes_a_carbon_flag_of_analysed_gas_for_out_of_range(frame: &Frame) -> Answer {
    instead(frame, |book, line, reason| {
        let mut mended = line.to_vec();
        mended[1] &= !CARBON_MEASURED;
        let is_it = reason == Reason::Form && judge(book, &mended).is_ok();
        is_it.then_some(Reason::OutOfRange)
    })
}

/// What a record would be with some heat.
fn with_heat(book: &Book, line: &[u8]) -> Judged {
    let mut measured = line.to_vec();
    measured[1] = HEAT_MEASURED;
    put(&mut measured, 12, &1u32.to_le_bytes());
    judge(book, &measured).map(|addition| Addition {
        ch4_ng: 0,
        n2o_ng: 0,
        ..addition
    })
}

/// Its carbon gives the CO2.
pub fn needs_no_heat_of_analysed_gas(frame: &Frame) -> Answer {
    of_gas(frame, |book, line| match judge(book, line) {
        Err(Reason::NoHeatInUse) => with_heat(book, line),
        judged => judged,
    })
}

/// Its hours give the CO2.
pub fn needs_no_heat_of_analysed_gas_on_a_monitored_unit(frame: &Frame) -> Answer {
    of_gas(frame, |book, line| match judge(book, line) {
        Err(Reason::NoHeatInUse) if is_monitored(book, line) => with_heat(book, line),
        judged => judged,
    })
}

fn is_monitored(book: &Book, line: &[u8]) -> bool {
    let unit = book.unit(u16_at(line, 2));
    unit.is_some_and(|unit| unit.monitor != Monitor::None)
}

/// Of a monitored unit the CO2 isn't reckoned, so what it is made of isn't asked for.
pub fn asks_for_no_molar_volume_on_a_monitored_unit(frame: &Frame) -> Answer {
    of_gas(frame, |book, line| match judge(book, line) {
        Err(Reason::OutOfRange) if is_monitored(book, line) && !is_analysable(book, line) => {
            let mut fuel_record = line.to_vec();
            fuel_record[0] = FUEL_RECORD;
            fuel_record[16..24].fill(0);
            judge(book, &fuel_record)
        }
        judged => judged,
    })
}

/// Without CO2, for there is nothing to divide by.
pub fn lets_gas_without_a_molar_volume_count_for_nothing(frame: &Frame) -> Answer {
    of_gas(frame, |book, line| match judge(book, line) {
        Err(Reason::OutOfRange) if fuel_of(book, line).is_some_and(|fuel| fuel.mvc == 0) => {
            let mut fuel_record = line.to_vec();
            fuel_record[0] = FUEL_RECORD;
            fuel_record[16..24].fill(0);
            judge(book, &fuel_record).map(|addition| Addition {
                method: 3,
                ledger: Co2Ledger::Fossil,
                co2_ug: 0,
                ..addition
            })
        }
        judged => judged,
    })
}

/// That is, takes kind 7 for it too.
pub fn asks_two_bits_of_the_kind_of_analysed_gas(frame: &Frame) -> Answer {
    super::super::records::judging(frame, |book, line| {
        let mut masked = line.to_vec();
        if line[0] & ANALYSED_GAS == ANALYSED_GAS {
            masked[0] = ANALYSED_GAS;
        }
        judge(book, &masked)
    })
}
