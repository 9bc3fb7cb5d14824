//! What is told besides the CO2 of analysed gas, where it goes, and by which method.

use second::answer::{Answer, Frame};
use second::book::Book;
use second::bytes::u16_at;
use second::lines::{Monitor, Unit, NATURAL_GAS};
use second::record::{judge, Addition, Co2Ledger, Reason};

use super::{fuel_of, nearest, of_gas, told, Factors};
use crate::draft::{put, HEAT_IS_LOW, HEAT_MEASURED};

pub fn puts_analysed_gas_into_the_biomass_ledger(frame: &Frame) -> Answer {
    told(frame, |addition| Addition {
        ledger: Co2Ledger::Biomass,
        ..addition
    })
}

pub fn puts_analysed_gas_into_no_ledger(frame: &Frame) -> Answer {
    told(frame, |addition| Addition {
        ledger: Co2Ledger::None,
        ..addition
    })
}

/// As for an hour and for anodes.
pub fn gives_analysed_gas_no_method(frame: &Frame) -> Answer {
    told(frame, |addition| Addition {
        method: 0,
        ..addition
    })
}

pub fn gives_no_ch4_of_analysed_gas(frame: &Frame) -> Answer {
    told(frame, |addition| Addition {
        ch4_ng: 0,
        ..addition
    })
}

pub fn gives_no_n2o_of_analysed_gas(frame: &Frame) -> Answer {
    told(frame, |addition| Addition {
        n2o_ng: 0,
        ..addition
    })
}

/// As anodes have none.
pub fn gives_co2_alone_of_analysed_gas(frame: &Frame) -> Answer {
    told(frame, |addition| Addition {
        ch4_ng: 0,
        n2o_ng: 0,
        ..addition
    })
}

/// Those that count, with the CH4 and N2O of the record that they become.
fn with_gases_of(frame: &Frame, other: impl Fn(&mut [u8])) -> Answer {
    of_gas(frame, |book, line| {
        let right = judge(book, line)?;
        let mut changed = line.to_vec();
        other(&mut changed);
        let wrong = judge(book, &changed).unwrap_or(right);
        Ok(Addition {
            ch4_ng: wrong.ch4_ng,
            n2o_ng: wrong.n2o_ng,
            ..right
        })
    })
}

pub fn takes_the_default_heat_of_analysed_gas(frame: &Frame) -> Answer {
    with_gases_of(frame, |line| {
        line[1] = 0;
        line[12..16].fill(0);
    })
}

pub fn takes_a_low_value_of_analysed_gas_for_a_high_one(frame: &Frame) -> Answer {
    with_gases_of(frame, |line| line[1] &= !HEAT_IS_LOW)
}

/// Of 1.11 times the low value, as a half to even would have it.
pub fn rounds_low_values_of_analysed_gas_to_even(frame: &Frame) -> Answer {
    with_gases_of(frame, |line| {
        if line[1] == HEAT_MEASURED | HEAT_IS_LOW {
            let low = second::bytes::u32_at(line, 12);
            let high = nearest(111 * u128::from(low), 100) as u32;
            line[1] = HEAT_MEASURED;
            put(line, 12, &high.to_le_bytes());
        }
    })
}

fn unit_of<'a>(book: &'a Book, line: &[u8]) -> Option<&'a Unit> {
    book.unit(u16_at(line, 2))
}

/// Besides its hours.
pub fn counts_analysed_gas_of_a_monitored_unit(frame: &Frame) -> Answer {
    counted_on(frame, |unit| unit.monitor != Monitor::None)
}

/// Since its flags are not 1.
pub fn counts_analysed_gas_of_a_dry_unit(frame: &Frame) -> Answer {
    counted_on(frame, |unit| unit.monitor == Monitor::Dry)
}

fn counted_on(frame: &Frame, wrong: impl Fn(&Unit) -> bool) -> Answer {
    of_gas(frame, |book, line| {
        let judged = judge(book, line)?;
        let gas = Factors::of(line, fuel_of(book, line).map_or(1, |fuel| fuel.mvc));
        Ok(match unit_of(book, line).is_some_and(&wrong) {
            true => Addition {
                method: 3,
                ledger: Co2Ledger::Fossil,
                co2_ug: nearest(gas.product(), gas.mvc) as u64,
                ..judged
            },
            false => judged,
        })
    })
}

/// By heat times the CO2 factor, as if no carbon were measured.
fn by_heat(frame: &Frame, wrong: impl Fn(&[u8]) -> bool) -> Answer {
    of_gas(frame, |book, line| {
        let judged = judge(book, line)?;
        if judged.method != 3 || !wrong(line) {
            return Ok(judged);
        }
        let mut fuel_record = line.to_vec();
        fuel_record[0] = crate::draft::FUEL_RECORD;
        fuel_record[16..24].fill(0);
        judge(book, &fuel_record)
    })
}

pub fn does_not_take_analysed_gas_for_carbon_measured(frame: &Frame) -> Answer {
    by_heat(frame, |_| true)
}

/// And else by its analysis.
pub fn prefers_the_measured_heat_of_analysed_gas(frame: &Frame) -> Answer {
    by_heat(frame, |line| line[1] & HEAT_MEASURED != 0)
}

/// Those that count are set aside on some units.
fn refused_on(frame: &Frame, reason: Reason, wrong: impl Fn(&Unit, u8) -> bool) -> Answer {
    of_gas(frame, |book, line| {
        let judged = judge(book, line)?;
        let class = fuel_of(book, line).map_or(0, |fuel| fuel.class);
        match unit_of(book, line).is_some_and(|unit| wrong(unit, class)) {
            true => Err(reason),
            false => Ok(judged),
        }
    })
}

pub fn permits_analysed_gas_on_small_units_alone(frame: &Frame) -> Answer {
    refused_on(frame, Reason::NoPermittedMethod, |unit, _| {
        unit.rating > 2_500 && unit.monitor == Monitor::None
    })
}

/// As method 2 would be.
pub fn permits_only_natural_gas_on_large_units(frame: &Frame) -> Answer {
    refused_on(frame, Reason::NoPermittedMethod, |unit, class| {
        let is_large = unit.rating > 2_500 && unit.monitor == Monitor::None;
        is_large && class != NATURAL_GAS
    })
}

pub fn refuses_analysed_gas_on_a_monitored_unit(frame: &Frame) -> Answer {
    refused_on(frame, Reason::HourWithoutMonitor, |unit, _| {
        unit.monitor != Monitor::None
    })
}

pub fn knows_analysed_natural_gas_alone(frame: &Frame) -> Answer {
    refused_on(frame, Reason::OutOfRange, |_, class| class != NATURAL_GAS)
}
