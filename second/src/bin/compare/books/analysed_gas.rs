//! Gas analysed by molecular weight: molar volumes, carbon and weights at every value that
//! tells something, each remainder of the division, the order of the reasons, and such
//! gas beside records of other kinds and in the totals.

mod beside_others;
mod flags;
mod fuel_lines;
mod reasons;
mod rounding;
mod totals;
mod values;

use crate::draft::{dry_unit, unit, Analysed, Draft, FuelLine, Line, FIRST_SET};
use crate::exchange::{Exchange, Outcome};
use crate::expectation::{Expectation, Field};
use crate::job;
use crate::random::Random;

const SMALL: u16 = 1;
const LARGE: u16 = 2;
const WET: u16 = 3;
const DRY: u16 = 4;
const UNLISTED: u16 = 99;

const RECORDS_PER_BOOK: usize = 48;

/// Every class with the kinds that may go with it.
const KINDS_AND_CLASSES: [(u8, u8); 6] = [(1, 0), (2, 0), (3, 0), (3, 1), (2, 2), (1, 3)];

const FUEL: FuelLine = FuelLine {
    number: 1,
    kind: 3,
    class: 1,
    heat: 38_000,
    co2: 50_000,
    ch4: 900,
    n2o: 90,
    mvc: 24_000,
};

/// A m3 of gas.
const GAS: Analysed = Analysed {
    unit: SMALL,
    fuel: FUEL.number,
    month: 7,
    amount: 1,
    heat: None,
    heat_is_low: false,
    carbon: 748_635,
    weight: 16_040,
};

/// What call 4 must say of a record.
type Case = (Line, Vec<Expectation>);

pub fn run(exchange: &mut Exchange, rng: &mut Random) -> Outcome<()> {
    values::run(exchange, rng)?;
    reasons::run(exchange, rng)?;
    flags::run(exchange, rng)?;
    beside_others::run(exchange, rng)?;
    fuel_lines::run(exchange, rng)?;
    rounding::run(exchange, rng)?;
    totals::run(exchange, rng)
}

/// A book of every sort of unit, these fuels and these records.
fn book(records: Vec<Line>, fuels: &[FuelLine]) -> Draft {
    Draft {
        records,
        units: vec![
            unit(SMALL, false, 2_500),
            unit(LARGE, false, 2_501),
            unit(WET, true, 2_500),
            dry_unit(DRY, 2_501),
        ],
        fuels: fuels.iter().map(FuelLine::line).collect(),
        year: 2019,
        warming_set: FIRST_SET,
    }
}

/// Records of these fuels, in as many books as they need.
fn held(
    exchange: &mut Exchange,
    rng: &mut Random,
    fuels: &[FuelLine],
    cases: &[Case],
) -> Outcome<()> {
    for cases in cases.chunks(RECORDS_PER_BOOK) {
        let records = cases.iter().map(|(line, _)| *line).collect();
        let book = book(records, fuels).bytes();
        for (index, (_, printed)) in (0..).zip(cases) {
            job::record(exchange, &book, index, printed.clone())?;
        }
        job::whole(exchange, rng, &book, Vec::new())?;
        job::in_wakes(exchange, rng, &book)?;
    }
    Ok(())
}

/// Under method 3, with so much CO2.
fn counted(co2_ug: u64) -> Vec<Expectation> {
    vec![
        Field::Number.is(0),
        Field::Reason.is(0),
        Field::Method.is(3),
        Field::Ledger.is(1),
        Field::Co2Ug.is(co2_ug),
    ]
}

/// Of amount, carbon and weight. Half a molar volume is added before the division, which
/// takes a half upward, and from there it goes back if that is an odd number.
fn nearest_ug(factors: [u32; 3], mvc: u32) -> u64 {
    let product: u128 = factors.into_iter().map(u128::from).product();
    let (doubled, mvc) = (2 * 3_664 * product, u128::from(mvc));
    let upward = (doubled + mvc) / (2 * mvc);
    let is_half = doubled % (2 * mvc) == mvc;
    (upward - u128::from(is_half && upward % 2 == 1)) as u64
}
