//! Analysed gas beside hours, anodes and fuel of the same unit and number, in every order:
//! it repeats nothing, and nothing repeats it.

use super::{book, DRY, FUEL, GAS, SMALL, WET};
use crate::draft::{Analysed, Burnt, Line};
use crate::exchange::{Exchange, Outcome};
use crate::job;
use crate::random::Random;
use crate::repeats::{of_reason, told, Judged, Key, Kind, COUNTED, REPEATED};

const RECORDS_PER_BOOK: u32 = 4;
const FUEL_NOT_LISTED: u64 = 3;
const HOUR_WITHOUT_MONITOR: u64 = 5;

/// Numbers that a month and an hour may both have.
const KEYS: [Key; 3] = [(WET, 1), (DRY, 12), (SMALL, 7)];

/// Fuel 0 can't be listed, but such a record has the bytes 2-7 of an hour and of anodes.
const FUELS: [(u16, u64); 2] = [(FUEL.number, COUNTED), (0, FUEL_NOT_LISTED)];

#[derive(Clone, Copy, PartialEq, Eq)]
enum Sort {
    OnceOnly(Kind),
    Fuel,
    AnalysedGas,
}

const SORTS: [Sort; 4] = [
    Sort::OnceOnly(Kind::Hours),
    Sort::OnceOnly(Kind::Anodes),
    Sort::Fuel,
    Sort::AnalysedGas,
];

pub fn run(exchange: &mut Exchange, rng: &mut Random) -> Outcome<()> {
    exchange.case("analysed gas, hours, anodes and fuel of one unit and number in every order");
    let count = SORTS.len();
    for (key, fuel) in KEYS
        .into_iter()
        .flat_map(|key| FUELS.map(|fuel| (key, fuel)))
    {
        for order in 0..count.pow(RECORDS_PER_BOOK) {
            let sort = |place| SORTS[order / count.pow(place) % count];
            let sorts: Vec<Sort> = (0..RECORDS_PER_BOOK).map(sort).collect();
            held(exchange, rng, &judged(key, fuel, &sorts))?;
        }
    }
    Ok(())
}

fn held(exchange: &mut Exchange, rng: &mut Random, records: &[Judged]) -> Outcome<()> {
    let lines = records.iter().map(|(line, _)| *line).collect();
    let book = book(lines, &[FUEL]).bytes();
    for (index, (_, reason)) in (0..).zip(records) {
        job::record(exchange, &book, index, of_reason(*reason))?;
    }
    job::whole(exchange, rng, &book, told(records))?;
    Ok(())
}

fn judged(key: Key, (fuel, of_fuel): (u16, u64), sorts: &[Sort]) -> Vec<Judged> {
    let reason = |place: usize| match sorts[place] {
        Sort::Fuel | Sort::AnalysedGas => of_fuel,
        Sort::OnceOnly(Kind::Hours) if key.0 == SMALL => HOUR_WITHOUT_MONITOR,
        sort if sorts[..place].contains(&sort) => REPEATED,
        _ => COUNTED,
    };
    let places = 0..sorts.len();
    places
        .map(|place| (line(sorts[place], key, fuel), reason(place)))
        .collect()
}

fn line(sort: Sort, (unit, month): Key, fuel: u16) -> Line {
    let gas = Analysed {
        unit,
        month,
        fuel,
        ..GAS
    };
    let burnt = Burnt {
        unit,
        fuel,
        month,
        amount: gas.amount,
        heat: None,
        heat_is_low: false,
        carbon: None,
    };
    match sort {
        Sort::OnceOnly(kind) => kind.record((unit, month)),
        Sort::Fuel => burnt.line(),
        Sort::AnalysedGas => gas.line(),
    }
}
