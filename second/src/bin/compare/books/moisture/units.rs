//! Wet and dry units side by side: the same hours, the same fuel records, and
//! totals as large as hours make them.

use super::{book, counted, held, DRY, WET};
use crate::draft::{hour, with_moisture, Burnt, Draft, FuelLine, Line, FULL_BOOK};
use crate::exchange::{Exchange, Outcome};
use crate::expectation::{Expectation, Field};
use crate::job;
use crate::random::Random;
use crate::specials::{FLOW_LIMIT, PERCENT_LIMIT};

/// 12.5 percent and 2,000,000 scf/h: R is 25,000,000 times the multiple.
const READINGS: [u32; 2] = [0x4148_0000, 0x49F4_2400];

/// Moisture in an hour that is as large as an hour can be, and kg of CO2: 518 x
/// 10^11 µg times the multiple.
const LARGEST: [(u16, u64); 5] = [
    (0, 51_800_000),
    (1, 51_748_200),
    (500, 25_900_000),
    (999, 51_800),
    (1_000, 0),
];

pub fn run(exchange: &mut Exchange, rng: &mut Random) -> Outcome<()> {
    exchange.case("the same hours in a wet and in a dry unit");
    held(exchange, rng, &same_hours())?;
    exchange.case("the same fuel records in a wet and in a dry unit");
    fuel_records(exchange, rng)?;
    exchange.case("full books of the largest hours of a dry unit");
    for (moisture, kg) in LARGEST {
        largest(exchange, rng, moisture, kg)?;
    }
    Ok(())
}

/// By turns, so that an hour can't be taken for the one before it.
fn same_hours() -> Vec<(Line, Vec<Expectation>)> {
    let [percent, flow] = READINGS;
    let mut hours = Vec::new();
    for moisture in [0, 1, 999, 1_000, 500, 0] {
        let wet = hour(WET, 1, percent, flow);
        let dry = with_moisture(hour(DRY, 1, percent, flow), moisture);
        let r = 25_000_000 * u64::from(1_000 - moisture);
        hours.extend([(wet, counted(25_000_000_000)), (dry, counted(r))]);
    }
    hours
}

/// Method 4 in either, with or without anything measured.
fn fuel_records(exchange: &mut Exchange, rng: &mut Random) -> Outcome<()> {
    let gas = FuelLine {
        number: 1,
        kind: 3,
        class: 1,
        heat: 38_000,
        co2: 50_000,
        ch4: 900,
        n2o: 90,
        mvc: 0,
    };
    let draft = Draft {
        fuels: vec![gas.line()],
        ..book(burnt(gas.number))
    };
    let bytes = draft.bytes();
    for index in 0..draft.records.len() as u32 {
        let printed = [
            Field::Reason.is(0),
            Field::Method.is(4),
            Field::Ledger.is(0),
            Field::Co2Ug.is(0),
            Field::Ch4Ng.is(34_200_000_000),
            Field::N2oNg.is(3_420_000_000),
        ];
        job::record(exchange, &bytes, index, printed.to_vec())?;
    }
    job::everything(exchange, rng, &bytes, draft.records.len())
}

fn burnt(fuel: u16) -> Vec<Line> {
    let measured = [
        (None, None),
        (Some(38_000), None),
        (None, Some(520_000)),
        (Some(38_000), Some(520_000)),
    ];
    let of_unit = |unit| {
        measured.map(|(heat, carbon)| Burnt {
            unit,
            fuel,
            month: 7,
            amount: 1_000,
            heat,
            heat_is_low: false,
            carbon,
        })
    };
    let records = [WET, DRY].map(of_unit).concat();
    records.iter().map(Burnt::line).collect()
}

fn largest(exchange: &mut Exchange, rng: &mut Random, moisture: u16, kg: u64) -> Outcome<()> {
    let line = with_moisture(hour(DRY, 8_784, PERCENT_LIMIT, FLOW_LIMIT), moisture);
    let hours = book(Vec::new()).room(FULL_BOOK);
    let book = book(vec![line; hours]).bytes();
    let printed = vec![Field::Number.is(0), Field::FossilKg.is(kg * hours as u64)];
    job::whole(exchange, rng, &book, printed)?;
    Ok(())
}
