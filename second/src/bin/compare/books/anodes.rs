//! Anode records: metal, use and impurities at every value that tells something, the
//! order of the reasons, and totals of many of the largest.

mod impurities;
mod reasons;
mod totals;
mod values;

use crate::draft::{dry_unit, unit, Anodes, Draft, FuelLine, Line, FIRST_SET, LAST_MONTH};
use crate::exchange::{Exchange, Outcome};
use crate::expectation::{Expectation, Field};
use crate::job;
use crate::random::Random;

const WET: u16 = 1;
const DRY: u16 = 2;
/// Without a monitor.
const PLAIN: u16 = 3;
const LISTED: [u16; 3] = [WET, DRY, PLAIN];

/// A gram of anode that is all carbon.
const GRAM: Anodes = Anodes {
    unit: PLAIN,
    month: 1,
    metal: 1,
    net_use: 1,
    impurities: [0; 3],
};

/// A fuel that no anode record may name, and that none needs.
const FUEL: FuelLine = FuelLine {
    number: 1,
    kind: 3,
    class: 1,
    heat: 38_000,
    co2: 50_000,
    ch4: 900,
    n2o: 90,
    mvc: 0,
};

pub fn run(exchange: &mut Exchange, rng: &mut Random) -> Outcome<()> {
    values::run(exchange, rng)?;
    impurities::run(exchange, rng)?;
    reasons::run(exchange, rng)?;
    totals::run(exchange, rng)
}

fn units() -> Vec<Line> {
    vec![
        unit(WET, true, 2_500),
        dry_unit(DRY, 2_501),
        unit(PLAIN, false, 100_000),
    ]
}

/// Records, each with what call 4 must say of it, in as many books as give each a month
/// of one of the units for itself; every second book lists no fuel.
fn held(
    exchange: &mut Exchange,
    rng: &mut Random,
    records: &[(Anodes, Vec<Expectation>)],
) -> Outcome<()> {
    let per_book = LISTED.len() * usize::from(LAST_MONTH);
    for (book, records) in records.chunks(per_book).enumerate() {
        let in_place = |(place, (anodes, _)): (usize, &(Anodes, _))| Anodes {
            unit: LISTED[place % LISTED.len()],
            month: 1 + (place / LISTED.len()) as u16,
            ..*anodes
        };
        let lines = records.iter().enumerate().map(in_place);
        let draft = Draft {
            records: lines.map(|anodes| anodes.line()).collect(),
            units: units(),
            fuels: [FUEL.line()][book % 2..].to_vec(),
            year: 2017,
            warming_set: FIRST_SET,
        };
        let book = draft.bytes();
        for (index, (_, printed)) in (0..).zip(records) {
            job::record(exchange, &book, index, printed.clone())?;
        }
        job::whole(exchange, rng, &book, Vec::new())?;
        job::in_wakes(exchange, rng, &book)?;
    }
    Ok(())
}

fn counted(co2_ug: u64) -> Vec<Expectation> {
    vec![
        Field::Number.is(0),
        Field::Reason.is(0),
        Field::Method.is(0),
        Field::Ledger.is(1),
        Field::Co2Ug.is(co2_ug),
        Field::Ch4Ng.is(0),
        Field::N2oNg.is(0),
    ]
}

fn set_aside(reason: u64) -> Vec<Expectation> {
    vec![Field::Number.is(0), Field::Reason.is(reason)]
}

/// What 366.4 times as many ten-thousandths of a gram of carbon are. The rounding is
/// written out: five of them are 1,832 µg, and one to four 366.4, 732.8, 1,099.2 and
/// 1,465.6 µg.
fn ug_of_carbon(ten_thousandths: u64) -> u64 {
    let rest = [0, 366, 733, 1_099, 1_466][(ten_thousandths % 5) as usize];
    ten_thousandths / 5 * 1_832 + rest
}
