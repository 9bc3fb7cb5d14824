//! Group 6: books longer than full ones, up to the longest and past it. Every call carries
//! the whole book, so records and wakes are asked at chosen places alone.

pub mod checkpoints;
pub mod ledgers;
pub mod lengths;
mod random;
pub mod repeats;
pub mod wakes;

use second::bytes::u32_at;
use second::lines::PURE_BIOMASS;

use crate::draft::{Draft, Line, DRY, FIRST_SET, LAST_HOUR, MONITORED};
use crate::exchange::{Exchange, Outcome};
use crate::random::Random;
use crate::random_books;
use crate::repeats::{monitored, Kind};

/// The hours of all but the last of these fill the longest book.
const UNITS: u16 = 16;
const SPARE_UNIT: u16 = UNITS;

/// So many records are more than 16 bits count.
const PAST_16_BITS: usize = 65_536;

const YEAR: u16 = 2016;

pub fn run(exchange: &mut Exchange, rng: &mut Random) -> Outcome<()> {
    lengths::run(exchange, rng)?;
    repeats::run(exchange, rng)?;
    ledgers::run(exchange, rng)?;
    wakes::run(exchange, rng)?;
    checkpoints::run(exchange, rng)?;
    random::run(exchange, rng)
}

/// Random unit and fuel lines, with every sort that makes another record count or sets one
/// aside: units without a monitor, wet and dry, gas that can be analysed, biomass, and
/// fuel without a default heat.
fn listing(rng: &mut Random) -> Draft {
    loop {
        let draft = random_books::listing(rng);
        let units = |flags: u8| draft.units.iter().any(|unit| unit[2] == flags);
        let fuels = |is_so: fn(&Line) -> bool| draft.fuels.iter().any(is_so);
        let has_units = units(0) && units(MONITORED) && units(MONITORED | DRY);
        let has_fuels = fuels(random_books::analysed_gas::is_of)
            && fuels(|fuel| fuel[3] == PURE_BIOMASS)
            && fuels(|fuel| u32_at(fuel, 4) == 0);
        if has_units && has_fuels {
            return draft;
        }
    }
}

/// Hours of one unit after the other, each from the first of the year to the last, so
/// that none stands twice.
fn hours(count: usize) -> Vec<Line> {
    let year = usize::from(LAST_HOUR);
    let key = |place: usize| ((1 + place / year) as u16, (1 + place % year) as u16);
    (0..count)
        .map(|place| Kind::Hours.record(key(place)))
        .collect()
}

fn draft_of(records: Vec<Line>) -> Draft {
    Draft {
        records,
        units: monitored(1..=UNITS),
        fuels: Vec::new(),
        year: YEAR,
        warming_set: FIRST_SET,
    }
}

/// As many hours as fill a book of this length, all of which count.
pub fn hours_up_to(length: usize) -> Draft {
    let room = draft_of(Vec::new()).room(length);
    draft_of(hours(room))
}
