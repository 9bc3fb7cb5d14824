//! Jobs over books with dry units, from older checkpoints and from those of other
//! books, above all of a book in which the same units are wet: a checkpoint tells
//! nothing of the flags, so such a job goes on by the book that it is given.

use second::bytes::u16_at;

use super::{brought, every_budget, older, BOOKS};
use crate::draft::{
    dry_unit, hour, numbered_apart, with_moisture, Draft, Line, DRY, FIRST_SET, HOUR, MONITORED,
};
use crate::exchange::{Exchange, Outcome};
use crate::expectation::{Expectation, Field};
use crate::job::{self, CHECKPOINT};
use crate::near_halves::{large_near_half, near_half, near_half_of_one, odd_multiple};
use crate::random::Random;
use crate::random_books;

pub fn run(exchange: &mut Exchange, rng: &mut Random) -> Outcome<()> {
    let times = exchange.run.settings.times;
    exchange.case("dry units, wakes of random budgets from older checkpoints");
    for _ in 0..BOOKS / 15 * times {
        let book = book(rng).bytes();
        older(exchange, rng, &[book])?;
    }
    exchange.case("dry units, every budget from 0 to past n, and the greatest");
    for _ in 0..BOOKS / 100 * times {
        let draft = book(rng);
        every_budget(exchange, rng, &draft)?;
    }
    exchange.case("dry units, checkpoints of another book, length or year");
    for _ in 0..BOOKS / 15 * times {
        let (one, other) = (book(rng), random_books::book(rng));
        brought(exchange, rng, &one, &other)?;
        brought(exchange, rng, &one, &with_wet_units(&one))?;
    }
    exchange.case("dry units taken for wet ones by turns, no moisture");
    for _ in 0..BOOKS / 30 * times {
        let draft = without_moisture(book(rng));
        let wet = with_wet_units(&draft).bytes();
        older(exchange, rng, &[draft.bytes(), wet])?;
    }
    exchange.case("dry units taken for wet ones from each place on, and the reverse");
    changed_flag(exchange, rng)
}

/// Records that count, and among them hours of a dry unit about a half of R.
fn book(rng: &mut Random) -> Draft {
    let mut draft = random_books::listing(rng);
    draft.units[0][2] = MONITORED | DRY;
    let others = rng.index(12);
    draft.records = random_books::counted_records(rng, &draft, others);
    for _ in 0..1 + rng.below(8) {
        let place = rng.index(draft.records.len() + 1);
        let hour = about_a_half(rng, u16_at(&draft.units[0], 0));
        draft.records.insert(place, hour);
    }
    draft.records = numbered_apart(draft.records);
    draft
}

fn about_a_half(rng: &mut Random, unit: u16) -> Line {
    let multiple = odd_multiple(rng);
    let pair = rng.pick(&[near_half, large_near_half, near_half_of_one]);
    let [percent, flow] = pair(rng, multiple);
    with_moisture(hour(unit, 1, percent, flow), 1_000 - multiple)
}

fn with_wet_units(draft: &Draft) -> Draft {
    let mut wet = draft.clone();
    wet.units.iter_mut().for_each(|unit| unit[2] &= !DRY);
    wet
}

fn without_moisture(mut draft: Draft) -> Draft {
    let hours = draft.records.iter_mut().filter(|record| record[0] == HOUR);
    hours.for_each(|hour| *hour = with_moisture(*hour, 0));
    draft
}

/// 12.5 percent x 2,000,000 scf/h, with half of it moisture: 6,475 kg each.
const HOURS: u32 = 4;
const KG_PER_HOUR: u64 = 6_475;

/// The hours count while their unit is dry, and are set aside, for reason 1, as
/// soon as it is wet.
fn changed_flag(exchange: &mut Exchange, rng: &mut Random) -> Outcome<()> {
    let moist = with_moisture(hour(1, 1, 0x4148_0000, 0x49F4_2400), 500);
    let draft = Draft {
        records: numbered_apart(vec![moist; HOURS as usize]),
        units: vec![dry_unit(1, 2_500)],
        fuels: Vec::new(),
        year: 2015,
        warming_set: FIRST_SET,
    };
    let (dry, wet) = (draft.bytes(), with_wet_units(&draft).bytes());
    for place in 0..=HOURS {
        let wet_later = (place < HOURS).then_some(place);
        gone_on(exchange, rng, [&dry, &wet], place, wet_later)?;
        let wet_first = (place > 0).then_some(0);
        gone_on(exchange, rng, [&wet, &dry], place, wet_first)?;
    }
    Ok(())
}

/// Begun with one book and gone on with the other from a place; either then
/// reports the same.
fn gone_on(
    exchange: &mut Exchange,
    rng: &mut Random,
    [book, later_book]: [&[u8]; 2],
    place: u32,
    first_set_aside: Option<u32>,
) -> Outcome<()> {
    let junk = rng.junk(CHECKPOINT);
    let start = job::fresh(exchange, book, &junk)?;
    let middle = job::wake(exchange, book, &start.output, place, &junk)?;
    let end = job::wake(exchange, later_book, &middle.output, u32::MAX, &junk)?;
    for book in [book, later_book] {
        let report = job::report_frame(book, &end.output, &[]);
        exchange.hold(&report, told(first_set_aside))?;
    }
    Ok(())
}

fn told(first_set_aside: Option<u32>) -> Vec<Expectation> {
    match first_set_aside {
        Some(first) => vec![
            Field::Number.is(41),
            Field::Reason.is(1),
            Field::Count.is(u64::from(first)),
        ],
        None => vec![
            Field::Number.is(0),
            Field::FossilKg.is(KG_PER_HOUR * u64::from(HOURS)),
        ],
    }
}
