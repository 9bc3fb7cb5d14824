//! Hours, anodes and fuel of one unit with the same bytes 2-7, in every order: a record
//! repeats those of its own kind alone, and fuel none.

use super::held;
use crate::draft::{unit, Burnt, Line};
use crate::exchange::{Exchange, Outcome};
use crate::random::Random;
use crate::repeats::{monitored, Judged, Key, Kind, COUNTED, REPEATED};

const RECORDS_PER_BOOK: u32 = 5;
const FUEL_NOT_LISTED: u64 = 3;
const WITHOUT_MONITOR: u16 = 3;

/// Numbers that a unit, a month and an hour may all have.
const KEYS: [Key; 4] = [(1, 1), (2, 12), (2, 2), (WITHOUT_MONITOR, 7)];

/// Fuel 0 can't be listed, so such a record has the bytes 2-7 of the others.
const SORTS: [Option<Kind>; 3] = [Some(Kind::Hours), Some(Kind::Anodes), None];

pub fn run(exchange: &mut Exchange, rng: &mut Random) -> Outcome<()> {
    exchange.case("hours, anodes and fuel of one unit and number in every order");
    let mut units = monitored([1, 2]);
    units.push(unit(WITHOUT_MONITOR, false, 2_500));
    let count = SORTS.len();
    for key in KEYS {
        for order in 0..count.pow(RECORDS_PER_BOOK) {
            let sort = |place| SORTS[order / count.pow(place) % count];
            let sorts: Vec<Option<Kind>> = (0..RECORDS_PER_BOOK).map(sort).collect();
            held(exchange, rng, &units, &judged(key, &sorts))?;
        }
    }
    Ok(())
}

fn judged(key: Key, sorts: &[Option<Kind>]) -> Vec<Judged> {
    let reason = |place: usize| match sorts[place] {
        None => FUEL_NOT_LISTED,
        Some(Kind::Hours) if key.0 == WITHOUT_MONITOR => 5,
        kind if sorts[..place].contains(&kind) => REPEATED,
        _ => COUNTED,
    };
    let line = |sort: Option<Kind>| sort.map_or_else(|| fuel_of(key), |kind| kind.record(key));
    let places = 0..sorts.len();
    places
        .map(|place| (line(sorts[place]), reason(place)))
        .collect()
}

fn fuel_of((unit, month): Key) -> Line {
    let burnt = Burnt {
        unit,
        fuel: 0,
        month,
        amount: 1_000,
        heat: None,
        heat_is_low: false,
        carbon: None,
    };
    burnt.line()
}
