//! "First that applies": records in which a low heat value is wrong and
//! something else is too, and ones that count for their low value alone.

use super::{book, CARBON, GAS, LARGE, LOW, MONITORED};
use crate::draft::{hour, Burnt, FuelLine, Line, HEAT_IS_LOW, MOST_LOW_HEAT};
use crate::exchange::{Exchange, Outcome};
use crate::expectation::{Expectation, Field};
use crate::job;
use crate::random::Random;

const UNLISTED: u16 = 99;
const NO_DEFAULT_HEAT: u16 = 2;
const OTHER_GAS: u16 = 3;
const OTHER_GAS_NO_DEFAULT_HEAT: u16 = 4;
const OIL: u16 = 5;
const WOOD: u16 = 6;

/// Number, kind, class and default heat.
const FUELS: [(u16, u8, u8, u32); 6] = [
    (GAS.number, 3, 1, 38_000),
    (NO_DEFAULT_HEAT, 3, 1, 0),
    (OTHER_GAS, 3, 0, 38_000),
    (OTHER_GAS_NO_DEFAULT_HEAT, 3, 0, 0),
    (OIL, 2, 2, 38_000),
    (WOOD, 1, 3, 20_000),
];

const FLAGGED_WITHOUT_HEAT: Burnt = Burnt { heat: None, ..LOW };
const ZERO: Burnt = Burnt {
    heat: Some(0),
    ..LOW
};
const TOO_GREAT: Burnt = Burnt {
    heat: Some(MOST_LOW_HEAT + 1),
    ..LOW
};

const fn of_fuel(fuel: u16, record: Burnt) -> Burnt {
    Burnt { fuel, ..record }
}

const fn in_unit(unit: u16, record: Burnt) -> Burnt {
    Burnt { unit, ..record }
}

const fn with_carbon(record: Burnt) -> Burnt {
    Burnt {
        carbon: Some(CARBON),
        ..record
    }
}

/// Each set of records has one reason.
fn set_aside() -> [(u64, Vec<Burnt>); 4] {
    let month_13 = Burnt {
        month: 13,
        ..FLAGGED_WITHOUT_HEAT
    };
    let form = vec![
        FLAGGED_WITHOUT_HEAT,
        with_carbon(FLAGGED_WITHOUT_HEAT),
        in_unit(UNLISTED, FLAGGED_WITHOUT_HEAT),
        in_unit(LARGE, FLAGGED_WITHOUT_HEAT),
        in_unit(MONITORED, FLAGGED_WITHOUT_HEAT),
        of_fuel(UNLISTED, FLAGGED_WITHOUT_HEAT),
        of_fuel(OTHER_GAS, FLAGGED_WITHOUT_HEAT),
        month_13,
    ];
    let of_no_unit = [LOW, ZERO, TOO_GREAT, of_fuel(OTHER_GAS, LOW)];
    let of_no_unit = of_no_unit.map(|record| in_unit(UNLISTED, record));
    let of_no_fuel = [LOW, ZERO, TOO_GREAT, in_unit(LARGE, LOW)];
    let of_no_fuel = of_no_fuel.map(|record| of_fuel(UNLISTED, record));
    [
        (1, form),
        (2, of_no_unit.to_vec()),
        (3, of_no_fuel.to_vec()),
        (4, out_of_range()),
    ]
}

/// Before "no permitted method", which a large unit has for another gas, and
/// before "no heat in use", which overlooking the low value would lead to.
fn out_of_range() -> Vec<Burnt> {
    let mut records = Vec::new();
    for fuel in [OTHER_GAS, OTHER_GAS_NO_DEFAULT_HEAT, OIL, WOOD] {
        for record in [LOW, ZERO, TOO_GREAT] {
            let record = of_fuel(fuel, record);
            records.extend([record, in_unit(LARGE, record), in_unit(MONITORED, record)]);
            records.push(with_carbon(record));
        }
    }
    for record in [ZERO, TOO_GREAT] {
        records.extend([record, in_unit(LARGE, record), in_unit(MONITORED, record)]);
        records.extend([with_carbon(record), of_fuel(NO_DEFAULT_HEAT, record)]);
    }
    records
}

/// A method, and a record that has it where there is no default heat.
const COUNTED: [(u64, Burnt); 4] = [
    (2, LOW),
    (2, in_unit(LARGE, LOW)),
    (3, with_carbon(LOW)),
    (4, in_unit(MONITORED, LOW)),
];

pub fn run(exchange: &mut Exchange, rng: &mut Random) -> Outcome<()> {
    exchange.case("low heat values, which reason comes first");
    let mut cases: Vec<(Line, Vec<Expectation>)> = Vec::new();
    for (reason, records) in set_aside() {
        let held = |record: Burnt| (record.line(), vec![Field::Reason.is(reason)]);
        cases.extend(records.into_iter().map(held));
    }
    let mut flagged_hour = hour(MONITORED, 1, 0, 0);
    flagged_hour[1] = HEAT_IS_LOW;
    cases.push((flagged_hour, vec![Field::Reason.is(1)]));
    held(exchange, rng, cases)?;
    exchange.case("low heat values where there is no default heat");
    let counted = COUNTED.map(|(method, record)| {
        let printed = [Field::Reason.is(0), Field::Method.is(method)];
        (of_fuel(NO_DEFAULT_HEAT, record).line(), printed.to_vec())
    });
    held(exchange, rng, counted.to_vec())
}

/// Every record in one book, with what call 4 must say of it.
fn held(
    exchange: &mut Exchange,
    rng: &mut Random,
    cases: Vec<(Line, Vec<Expectation>)>,
) -> Outcome<()> {
    let fuels = FUELS.map(|(number, kind, class, heat)| FuelLine {
        number,
        kind,
        class,
        heat,
        ..GAS
    });
    let records = cases.iter().map(|(line, _)| *line).collect();
    let draft = book(records, &fuels);
    let book = draft.bytes();
    for (index, (_, printed)) in (0..).zip(cases) {
        job::record(exchange, &book, index, printed)?;
    }
    job::everything(exchange, rng, &book, draft.records.len())
}
