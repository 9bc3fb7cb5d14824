//! Every pair of special readings with moisture, on a dry unit and on others.

use super::{book, DRY, PLAIN, WET};
use crate::draft::{hour, with_moisture, MOST_MOISTURE};
use crate::exchange::{Exchange, Outcome};
use crate::job;
use crate::random::Random;
use crate::specials::{singles, FLOW_LIMIT, PERCENT_LIMIT};

/// Unit and moisture.
const HOURS: [(u16, u16); 8] = [
    (DRY, 0),
    (DRY, 1),
    (DRY, 500),
    (DRY, MOST_MOISTURE - 1),
    (DRY, MOST_MOISTURE),
    (DRY, MOST_MOISTURE + 1),
    (WET, 1),
    (PLAIN, 1),
];

pub fn run(exchange: &mut Exchange, rng: &mut Random) -> Outcome<()> {
    exchange.case("every pair of special readings with moisture");
    for (unit, moisture) in HOURS {
        for percent in singles(PERCENT_LIMIT) {
            let of_flow = |flow| with_moisture(hour(unit, 1, percent, flow), moisture);
            let draft = book(singles(FLOW_LIMIT).into_iter().map(of_flow).collect());
            job::records(exchange, &draft.bytes(), draft.records.len())?;
            job::whole(exchange, rng, &draft.bytes(), Vec::new())?;
        }
    }
    Ok(())
}
