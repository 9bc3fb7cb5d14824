//! Anodes in the totals: as many of the largest as a book has room for without a
//! repeat, and the thresholds of the decision to a nanogram with anodes in part of T.

use super::super::part_of_total::{self, Part};
use super::GRAM;
use crate::draft::{unit, Anodes, Draft, FIRST_SET, LAST_MONTH, MOST_METAL, MOST_USE, SETS};
use crate::exchange::{Exchange, Outcome};
use crate::expectation;
use crate::job;
use crate::random::Random;

const MOST_UNITS: u16 = 64;

/// 366,400 t each.
const LARGEST: Anodes = Anodes {
    metal: MOST_METAL,
    net_use: MOST_USE,
    ..GRAM
};

/// 366,400 t x 12 months x 1, 7 and 64 units, in kg.
const YEARS: [(u16, u64); 3] = [
    (1, 4_396_800_000),
    (7, 30_777_600_000),
    (MOST_UNITS, 281_395_200_000),
];

/// Anodes, which both units of the book have by turns, and their CO2 in µg: of 1 t of
/// carbon, of a ten-thousandth of a gram, which is 366.4 µg, and of 970 t.
const PARTS: [(Anodes, u64); 3] = [
    (
        Anodes {
            metal: 10_000,
            net_use: 125,
            impurities: [2_000, 0, 0],
            ..GRAM
        },
        3_664_000_000_000,
    ),
    (
        Anodes {
            impurities: [0, 0, 9_999],
            ..GRAM
        },
        366,
    ),
    (
        Anodes {
            metal: 2_000_000,
            net_use: 500,
            impurities: [100, 150, 50],
            ..GRAM
        },
        3_554_080_000_000_000,
    ),
];

pub fn run(exchange: &mut Exchange, rng: &mut Random) -> Outcome<()> {
    exchange.case("anodes, the largest in each month of as many units as there may be");
    for (units, kg) in YEARS {
        for set in SETS {
            let book = year_of_largest(units).under(set);
            let printed = expectation::report([kg, 0, 0, 0, kg], true);
            job::whole(exchange, rng, &book, printed)?;
            job::in_wakes(exchange, rng, &book)?;
        }
    }
    let parts = PARTS.iter().flat_map(|(anodes, ug)| {
        [1, 2].map(|unit| Part {
            record: Anodes { unit, ..*anodes }.line(),
            ug: *ug,
            fuel: None,
        })
    });
    part_of_total::run(exchange, rng, "anodes", &parts.collect::<Vec<Part>>())
}

fn year_of_largest(units: u16) -> Draft {
    let keys = (1..=units).flat_map(|unit| (1..=LAST_MONTH).map(move |month| (unit, month)));
    let anodes = keys.map(|(unit, month)| Anodes {
        unit,
        month,
        ..LARGEST
    });
    Draft {
        records: anodes.map(|anodes| anodes.line()).collect(),
        units: (1..=units)
            .map(|number| unit(number, number % 2 == 0, 2_500))
            .collect(),
        fuels: Vec::new(),
        year: 2018,
        warming_set: FIRST_SET,
    }
}
