//! Jobs over books with analysed gas, from older checkpoints and from those of other books,
//! above all of a book whose molar volumes were edited: a checkpoint tells nothing of the
//! fuel lines, so such a job goes on by the book that it is given.

use second::bytes::u16_at;

use super::{brought, every_budget, older, record_by_record, BOOKS};
use crate::draft::{put, unit, Analysed, Draft, FuelLine, Line, FIRST_SET, MVC_PLACE, NATURAL_GAS};
use crate::exchange::{Exchange, Outcome};
use crate::expectation::{withheld, Expectation, Field};
use crate::job::{self, CHECKPOINT};
use crate::random::Random;
use crate::random_books::{self, analysed_gas};

pub fn run(exchange: &mut Exchange, rng: &mut Random) -> Outcome<()> {
    let times = exchange.run.settings.times;
    exchange.case("analysed gas, a molar volume edited between two wakes");
    edited(exchange, rng)?;
    exchange.case("analysed gas, wakes of random budgets from older checkpoints");
    for _ in 0..BOOKS / 15 * times {
        let book = book(rng).bytes();
        older(exchange, rng, &[book])?;
    }
    exchange.case("analysed gas, every budget from 0 to past n, and the greatest");
    for _ in 0..BOOKS / 100 * times {
        let draft = book(rng);
        every_budget(exchange, rng, &draft)?;
    }
    exchange.case("analysed gas, record by record");
    for _ in 0..BOOKS / 30 * times {
        let draft = book(rng);
        record_by_record(exchange, rng, &draft)?;
    }
    exchange.case("analysed gas, checkpoints of another book, length or year");
    for _ in 0..BOOKS / 15 * times {
        let (one, other) = (book(rng), random_books::book(rng));
        let with_other_volumes = with_other_volumes(rng, &one);
        brought(exchange, rng, &one, &other)?;
        brought(exchange, rng, &one, &with_other_volumes)?;
    }
    Ok(())
}

/// Records that count, and among them analysed gas of the first fuel.
fn book(rng: &mut Random) -> Draft {
    let mut draft = random_books::listing(rng);
    let gas = FuelLine {
        number: u16_at(&draft.fuels[0], 0),
        mvc: analysed_gas::mvc(rng),
        ..GAS
    };
    draft.fuels[0] = gas.line();
    let others = rng.index(12);
    draft.records = random_books::counted_records(rng, &draft, others);
    for _ in 0..1 + rng.below(8) {
        let place = rng.index(draft.records.len() + 1);
        let unit = u16_at(&rng.pick(&draft.units), 0);
        let record = analysed_gas::good(rng, unit, &gas.line());
        draft.records.insert(place, record);
    }
    draft
}

/// Or, now and then, none.
fn with_other_volumes(rng: &mut Random, draft: &Draft) -> Draft {
    let mut other = draft.clone();
    for fuel in &mut other.fuels {
        let mvc = match rng.below(4) {
            0 => 0,
            _ => analysed_gas::mvc(rng),
        };
        put(fuel, MVC_PLACE, &u32::to_le_bytes(mvc));
    }
    other
}

const GAS: FuelLine = FuelLine {
    number: 1,
    kind: 3,
    class: NATURAL_GAS,
    heat: 38_000,
    co2: 50_000,
    ch4: 0,
    n2o: 0,
    mvc: 0,
};

/// 3,000 kg of carbon at 20,000 l/kmol: 12,000 m3 x 250,000 mg/kg x 20,000 g/kmol.
const RECORD: Analysed = Analysed {
    unit: 1,
    fuel: 1,
    month: 1,
    amount: 12_000,
    heat: None,
    heat_is_low: false,
    carbon: 250_000,
    weight: 20_000,
};
const RECORDS: u32 = 4;

/// Molar volumes and the CO2 in kg of a record by each. By none, records are set aside.
const VOLUMES: [(u32, Option<u64>); 4] = [
    (20_000, Some(10_992)),
    (21_984, Some(10_000)),
    (24_000, Some(9_160)),
    (0, None),
];

/// Records up to a place by one molar volume, the others by another: each keeps what it
/// was counted by.
fn edited(exchange: &mut Exchange, rng: &mut Random) -> Outcome<()> {
    for first in VOLUMES {
        for later in VOLUMES {
            for place in 0..=RECORDS {
                gone_on(exchange, rng, [first, later], place)?;
            }
        }
    }
    Ok(())
}

fn gone_on(
    exchange: &mut Exchange,
    rng: &mut Random,
    [first, later]: [(u32, Option<u64>); 2],
    place: u32,
) -> Outcome<()> {
    let [book, later_book] = [first, later].map(|(mvc, _)| of_volume(mvc));
    let junk = rng.junk(CHECKPOINT);
    let start = job::fresh(exchange, &book, &junk)?;
    let middle = job::wake(exchange, &book, &start.output, place, &junk)?;
    let end = job::wake(exchange, &later_book, &middle.output, u32::MAX, &junk)?;
    for book in [&book, &later_book] {
        let report = job::report_frame(book, &end.output, &[]);
        exchange.hold(&report, told(first, later, u64::from(place)))?;
    }
    Ok(())
}

fn of_volume(mvc: u32) -> Vec<u8> {
    let records: Vec<Line> = vec![RECORD.line(); RECORDS as usize];
    let draft = Draft {
        records,
        units: vec![unit(1, false, 2_500)],
        fuels: vec![FuelLine { mvc, ..GAS }.line()],
        year: 2020,
        warming_set: FIRST_SET,
    };
    draft.bytes()
}

fn told(
    (_, first): (u32, Option<u64>),
    (_, later): (u32, Option<u64>),
    place: u64,
) -> Vec<Expectation> {
    let rest = u64::from(RECORDS) - place;
    match (first, later) {
        (None, _) if place > 0 => withheld(0, 4),
        (_, None) if rest > 0 => withheld(place, 4),
        _ => {
            let kg = place * first.unwrap_or(0) + rest * later.unwrap_or(0);
            vec![Field::Number.is(0), Field::FossilKg.is(kg)]
        }
    }
}
