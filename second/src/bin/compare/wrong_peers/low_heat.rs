//! Programs that are wrong about low heat values.

use second::answer::{Answer, Frame};
use second::book::Book;
use second::bytes::{u16_at, u32_at};
use second::lines::{Fuel, GAS};
use second::record::{judge, Addition, Judged, Reason};

use super::records::judging;
use crate::draft::{
    put, CARBON_MEASURED, FUEL_RECORD, HEAT_IS_LOW, HEAT_MEASURED, MOST_LOW_HEAT, NATURAL_GAS,
};

/// Fuel records with these of the flags for heat, judged wrongly.
fn flagged(frame: &Frame, flags: u8, wrong: impl Fn(&Book, &[u8]) -> Judged) -> Answer {
    judging(frame, |book, line| {
        let is_meant = line[0] == FUEL_RECORD && line[1] & (HEAT_MEASURED | HEAT_IS_LOW) == flags;
        match is_meant {
            true => wrong(book, line),
            false => judge(book, line),
        }
    })
}

fn with_low_heat(frame: &Frame, wrong: impl Fn(&Book, &[u8]) -> Judged) -> Answer {
    flagged(frame, HEAT_MEASURED | HEAT_IS_LOW, wrong)
}

fn flagged_without_heat(frame: &Frame, wrong: impl Fn(&Book, &[u8]) -> Judged) -> Answer {
    flagged(frame, HEAT_IS_LOW, wrong)
}

fn without_flags(line: &[u8], flags: u8) -> Vec<u8> {
    let mut changed = line.to_vec();
    changed[1] &= !flags;
    changed
}

fn low_heat(line: &[u8]) -> u32 {
    u32_at(line, 12)
}

/// 1.11 times a low value, half upward.
fn high_heat(line: &[u8]) -> u32 {
    (111 * low_heat(line) + 50) / 100
}

/// The record with this heat in use: so many times what a high value of 1 gives.
fn by_heat(book: &Book, line: &[u8], heat: u32) -> Judged {
    let mut of_one = without_flags(line, HEAT_IS_LOW);
    put(&mut of_one, 12, &1u32.to_le_bytes());
    let one = judge(book, &of_one)?;
    let times = |mass: u64| mass * u64::from(heat);
    Ok(Addition {
        co2_ug: match one.method {
            2 => times(one.co2_ug),
            _ => one.co2_ug,
        },
        ch4_ng: times(one.ch4_ng),
        n2o_ng: times(one.n2o_ng),
        ..one
    })
}

/// Records that count, with a heat in use that is wrong in its rounding: of so
/// many hundredths of a kJ.
fn rounding(frame: &Frame, wrong: impl Fn(u32) -> u32) -> Answer {
    with_low_heat(frame, |book, line| {
        judge(book, line)?;
        by_heat(book, line, wrong(111 * low_heat(line)))
    })
}

pub fn rounds_halves_of_the_heat_downward(frame: &Frame) -> Answer {
    rounding(frame, |hundredths| (hundredths + 49) / 100)
}

pub fn rounds_halves_of_the_heat_to_the_even_number(frame: &Frame) -> Answer {
    rounding(frame, |hundredths| {
        let (whole, rest) = (hundredths / 100, hundredths % 100);
        whole + u32::from(rest > 50 || (rest == 50 && whole % 2 == 1))
    })
}

pub fn never_rounds_the_heat_up(frame: &Frame) -> Answer {
    rounding(frame, |hundredths| hundredths / 100)
}

pub fn takes_a_low_value_for_a_high_one(frame: &Frame) -> Answer {
    with_low_heat(frame, |book, line| {
        judge(book, &without_flags(line, HEAT_IS_LOW))
    })
}

/// Rounded to whole µg and ng there, and not in the heat.
pub fn multiplies_the_masses_by_1_11(frame: &Frame) -> Answer {
    with_low_heat(frame, |book, line| {
        judge(book, line)?;
        let low = by_heat(book, line, low_heat(line))?;
        let times = |mass: u64| ((111 * u128::from(mass) + 50) / 100) as u64;
        Ok(Addition {
            co2_ug: match low.method {
                2 => times(low.co2_ug),
                _ => low.co2_ug,
            },
            ch4_ng: times(low.ch4_ng),
            n2o_ng: times(low.n2o_ng),
            ..low
        })
    })
}

/// CH4 and N2O from the low value as it stands, under these methods.
fn low_gases(frame: &Frame, methods: &[u8]) -> Answer {
    with_low_heat(frame, |book, line| {
        let right = judge(book, line)?;
        let low = by_heat(book, line, low_heat(line))?;
        match methods.contains(&right.method) {
            true => Ok(Addition {
                co2_ug: right.co2_ug,
                ..low
            }),
            false => Ok(right),
        }
    })
}

pub fn takes_the_high_value_for_co2_alone(frame: &Frame) -> Answer {
    low_gases(frame, &[2, 3, 4])
}

/// That is, only where the CO2 needs it.
pub fn takes_the_high_value_under_method_2_alone(frame: &Frame) -> Answer {
    low_gases(frame, &[3, 4])
}

/// Low values out of range that are believed all the same.
fn believing(frame: &Frame, wrong: impl Fn(&Fuel, u32) -> bool) -> Answer {
    with_low_heat(frame, |book, line| match judge(book, line) {
        Err(Reason::OutOfRange) => {
            let fuel = book.fuel(u16_at(line, 4)).expect("no reason comes before");
            match wrong(fuel, low_heat(line)) {
                true => by_heat(book, line, high_heat(line)),
                false => Err(Reason::OutOfRange),
            }
        }
        judged => judged,
    })
}

pub fn does_not_ask_the_class(frame: &Frame) -> Answer {
    believing(frame, |_, low| (1..=MOST_LOW_HEAT).contains(&low))
}

pub fn takes_any_gas_for_natural_gas(frame: &Frame) -> Answer {
    believing(frame, |fuel, low| {
        fuel.kind == GAS && (1..=MOST_LOW_HEAT).contains(&low)
    })
}

pub fn lets_low_values_reach_200_000(frame: &Frame) -> Answer {
    believing(frame, |fuel, low| {
        fuel.class == NATURAL_GAS && (1..=200_000).contains(&low)
    })
}

pub fn takes_0_for_a_low_value(frame: &Frame) -> Answer {
    believing(frame, |fuel, low| fuel.class == NATURAL_GAS && low == 0)
}

/// The record with nothing in place of its heat.
fn without_heat(line: &[u8]) -> Vec<u8> {
    let mut changed = without_flags(line, HEAT_MEASURED | HEAT_IS_LOW);
    changed[12..16].fill(0);
    changed
}

pub fn takes_the_default_heat_for_a_low_value(frame: &Frame) -> Answer {
    with_low_heat(frame, |book, line| {
        judge(book, line)?;
        judge(book, &without_heat(line))
    })
}

/// That is, permits method 1 or none; the heat in use is right.
pub fn chooses_the_method_as_if_a_low_value_were_not_measured(frame: &Frame) -> Answer {
    with_low_heat(frame, |book, line| {
        let right = judge(book, line)?;
        match judge(book, &without_heat(line)) {
            Ok(Addition { method, .. }) => Ok(Addition { method, ..right }),
            Err(Reason::NoHeatInUse) => Ok(right),
            Err(reason) => Err(reason),
        }
    })
}

/// For reason 1, as if at most two flags might be set.
pub fn refuses_a_low_value_with_carbon(frame: &Frame) -> Answer {
    with_low_heat(frame, |book, line| match line[1] & CARBON_MEASURED {
        0 => judge(book, line),
        _ => Err(Reason::Form),
    })
}

pub fn overlooks_a_low_flag_without_heat(frame: &Frame) -> Answer {
    flagged_without_heat(frame, |book, line| {
        judge(book, &without_flags(line, HEAT_IS_LOW))
    })
}

/// That is, reads bits 0 and 2 where bit 2 alone is set.
pub fn takes_a_low_flag_for_measured_heat(frame: &Frame) -> Answer {
    flagged_without_heat(frame, |book, line| {
        let mut measured = line.to_vec();
        measured[1] |= HEAT_MEASURED;
        judge(book, &measured)
    })
}

/// That is, for reason 4.
pub fn takes_a_low_flag_without_heat_for_out_of_range(frame: &Frame) -> Answer {
    flagged_without_heat(frame, |book, line| {
        match judge(book, &without_flags(line, HEAT_IS_LOW)) {
            Err(reason) if (reason as u8) < Reason::OutOfRange as u8 => Err(reason),
            _ => Err(Reason::OutOfRange),
        }
    })
}
