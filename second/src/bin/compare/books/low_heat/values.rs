//! Low heat values at the edges of their range and at the halves of their
//! 1.11-fold, and every one of them.

use super::{book, CARBON, GAS, KINDS_AND_CLASSES, LARGE, LOW, MONITORED, SMALL, UNITS};
use crate::draft::{Burnt, FuelLine, Line, MOST_LOW_HEAT};
use crate::exchange::{Exchange, Outcome};
use crate::expectation::Field;
use crate::job;
use crate::random::Random;

/// The ends of the range of a low value and of a high one with their
/// neighbours, and the least whose 111-fold doesn't fit into 32 bits: cut off
/// there, it is 104.
const EDGES: [u32; 12] = [
    0,
    1,
    2,
    MOST_LOW_HEAT - 1,
    MOST_LOW_HEAT,
    MOST_LOW_HEAT + 1,
    199_999,
    200_000,
    200_001,
    38_693_400,
    u32::MAX - 1,
    u32::MAX,
];

/// What a low value has over its whole hundreds, and what its 1.11-fold, to
/// the nearest kJ, then has over as many times 111: 54.39, 55.5 and 56.61.
const ABOUT_A_HALF: [(u32, u64); 3] = [(49, 54), (50, 56), (51, 57)];
const HUNDREDS: u32 = MOST_LOW_HEAT / 100;
const HUNDREDS_PER_BOOK: u32 = 20;

/// Unit and carbon, so that the method is 2, 2, 4 and 3.
const WAYS: [(u16, Option<u32>); 4] = [
    (SMALL, None),
    (LARGE, None),
    (MONITORED, None),
    (SMALL, Some(CARBON)),
];

/// Gas whose CO2, CH4 and N2O are its heat in use, as numbers.
const HEAT_ALONE: FuelLine = FuelLine {
    co2: 1,
    ch4: 1,
    n2o: 1,
    ..GAS
};

const VALUES_PER_BOOK: u32 = 2_000;

pub fn run(exchange: &mut Exchange, rng: &mut Random) -> Outcome<()> {
    exchange.case("low heat values at the edges of their range, of every class");
    for unit in UNITS {
        edges(exchange, rng, unit)?;
    }
    exchange.case("low heat values whose 1.11-fold is a half, and their neighbours");
    for first in (0..HUNDREDS).step_by(HUNDREDS_PER_BOOK as usize) {
        halves(exchange, rng, first)?;
    }
    exchange.case("every low heat value, in full books");
    for first in (1..=MOST_LOW_HEAT).step_by(VALUES_PER_BOOK as usize) {
        let records: Vec<Line> = (first..first + VALUES_PER_BOOK).map(weighed).collect();
        let book = book(records, &[HEAT_ALONE]).bytes();
        job::whole(exchange, rng, &book, Vec::new())?;
    }
    Ok(())
}

fn edges(exchange: &mut Exchange, rng: &mut Random, unit: u16) -> Outcome<()> {
    let fuel = |(number, (kind, class))| FuelLine {
        number,
        kind,
        class,
        ..GAS
    };
    let fuels: Vec<FuelLine> = (1..).zip(KINDS_AND_CLASSES).map(fuel).collect();
    let records = fuels
        .iter()
        .flat_map(|fuel| edge_records(unit, fuel.number));
    let draft = book(records.collect(), &fuels);
    job::everything(exchange, rng, &draft.bytes(), draft.records.len())
}

/// Every edge as a low value, with carbon and without, and as a high one.
fn edge_records(unit: u16, fuel: u16) -> Vec<Line> {
    let mut records = Vec::new();
    for value in EDGES {
        for (heat_is_low, carbon) in [(true, None), (true, Some(CARBON)), (false, None)] {
            let record = Burnt {
                unit,
                fuel,
                heat: Some(value),
                heat_is_low,
                carbon,
                ..LOW
            };
            records.push(record.line());
        }
    }
    records
}

/// Values about a half from so many hundreds on.
fn halves(exchange: &mut Exchange, rng: &mut Random, first: u32) -> Outcome<()> {
    let hundreds = first..first + HUNDREDS_PER_BOOK;
    let cases: Vec<(Line, u64)> = hundreds.flat_map(about_a_half).collect();
    let records = cases.iter().map(|(line, _)| *line).collect();
    let book = book(records, &[HEAT_ALONE]).bytes();
    for (index, (_, heat)) in (0..).zip(cases) {
        let printed = [
            Field::Reason.is(0),
            Field::Ch4Ng.is(heat),
            Field::N2oNg.is(heat),
        ];
        job::record(exchange, &book, index, printed.to_vec())?;
    }
    job::whole(exchange, rng, &book, Vec::new())?;
    Ok(())
}

/// Records of low values about a half, each with the heat in use that it must
/// have. Every way takes two turns on end, for the half lies above an even and
/// above an odd number by turns.
fn about_a_half(hundreds: u32) -> [(Line, u64); 3] {
    let (unit, carbon) = WAYS[hundreds as usize / 2 % WAYS.len()];
    ABOUT_A_HALF.map(|(over, high_over)| {
        let record = Burnt {
            unit,
            amount: 1,
            heat: Some(100 * hundreds + over),
            carbon,
            ..LOW
        };
        (record.line(), 111 * u64::from(hundreds) + high_over)
    })
}

/// A record of this low value. The amounts differ, so that in a total no two
/// heats that are off by one make up for each other.
fn weighed(value: u32) -> Line {
    let record = Burnt {
        amount: value,
        heat: Some(value),
        ..LOW
    };
    record.line()
}
