//! What is told besides the CO2 of anodes, and where it goes.

use second::answer::{Answer, Frame};
use second::book::Book;
use second::bytes::u16_at;
use second::lines::{Monitor, Unit};
use second::record::{judge, Addition, Co2Ledger, Reason};

use super::of_anodes;

/// Anodes that count, told wrongly.
fn told(frame: &Frame, wrong: impl Fn(Addition) -> Addition) -> Answer {
    of_anodes(frame, |book, line| judge(book, line).map(&wrong))
}

pub fn puts_anodes_into_the_biomass_ledger(frame: &Frame) -> Answer {
    told(frame, |addition| Addition {
        ledger: Co2Ledger::Biomass,
        ..addition
    })
}

pub fn puts_anodes_into_no_ledger(frame: &Frame) -> Answer {
    told(frame, |addition| Addition {
        ledger: Co2Ledger::None,
        ..addition
    })
}

pub fn gives_anodes_method_1(frame: &Frame) -> Answer {
    told(frame, |addition| Addition {
        method: 1,
        ..addition
    })
}

/// As if carbon were measured.
pub fn gives_anodes_method_3(frame: &Frame) -> Answer {
    told(frame, |addition| Addition {
        method: 3,
        ..addition
    })
}

pub fn gives_ch4_of_anodes(frame: &Frame) -> Answer {
    told(frame, |addition| Addition {
        ch4_ng: addition.co2_ug / 1_000,
        ..addition
    })
}

pub fn gives_n2o_of_anodes(frame: &Frame) -> Answer {
    told(frame, |addition| Addition {
        n2o_ng: addition.co2_ug / 1_000,
        ..addition
    })
}

fn unit_of<'a>(book: &'a Book, line: &[u8]) -> Option<&'a Unit> {
    book.unit(u16_at(line, 2))
}

/// As fuel of such a unit: its hours give the CO2.
pub fn leaves_the_anodes_of_a_monitored_unit_to_its_hours(frame: &Frame) -> Answer {
    of_anodes(frame, |book, line| {
        let judged = judge(book, line)?;
        let is_monitored = unit_of(book, line).is_some_and(|unit| unit.monitor != Monitor::None);
        Ok(match is_monitored {
            true => Addition {
                method: 4,
                ledger: Co2Ledger::None,
                co2_ug: 0,
                ..judged
            },
            false => judged,
        })
    })
}

/// Anodes that count are set aside on some units.
fn refused_on(frame: &Frame, reason: Reason, wrong: impl Fn(&Unit) -> bool) -> Answer {
    of_anodes(frame, |book, line| {
        let judged = judge(book, line)?;
        match unit_of(book, line).is_some_and(&wrong) {
            true => Err(reason),
            false => Ok(judged),
        }
    })
}

pub fn asks_for_a_monitor_of_anodes(frame: &Frame) -> Answer {
    refused_on(frame, Reason::HourWithoutMonitor, |unit| {
        unit.monitor == Monitor::None
    })
}

pub fn refuses_anodes_on_a_monitored_unit(frame: &Frame) -> Answer {
    refused_on(frame, Reason::HourWithoutMonitor, |unit| {
        unit.monitor != Monitor::None
    })
}

pub fn refuses_anodes_on_a_dry_unit(frame: &Frame) -> Answer {
    refused_on(frame, Reason::Form, |unit| unit.monitor == Monitor::Dry)
}

pub fn asks_for_a_method_of_anodes_on_a_large_unit(frame: &Frame) -> Answer {
    refused_on(frame, Reason::NoPermittedMethod, |unit| unit.rating > 2_500)
}

pub fn asks_for_a_fuel_of_anodes(frame: &Frame) -> Answer {
    refused_on(frame, Reason::FuelNotListed, |_| true)
}

pub fn asks_for_heat_of_anodes(frame: &Frame) -> Answer {
    refused_on(frame, Reason::NoHeatInUse, |_| true)
}
