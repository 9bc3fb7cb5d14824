//! The set of warming values that a trailer names: totals at the thresholds
//! under each set, and every value of byte 20 and of the bytes about it.

use super::every_call::Checkpoints;
use crate::draft::{LINE, SETS};
use crate::exact;
use crate::exchange::{Exchange, Outcome};
use crate::job;
use crate::random::Random;
use crate::sample::small_book;
use crate::warming::EDGES;

const TRAILER_WRONG: u64 = 21;

/// "Bytes not named are zero": those before and after the set.
const UNNAMED: [usize; 13] = [18, 19, 21, 22, 23, 24, 25, 26, 27, 28, 29, 30, 31];

pub fn run(exchange: &mut Exchange, rng: &mut Random) -> Outcome<()> {
    for edge in EDGES {
        exchange.case(edge.name);
        let draft = exact::book(edge.totals);
        for set in SETS {
            let book = draft.under(set);
            job::whole(exchange, rng, &book, edge.report(set))?;
            job::everything(exchange, rng, &book, draft.records.len())?;
        }
    }
    exchange.case("every value of the byte that names the set");
    let checkpoints = Checkpoints::of_small_book(exchange, rng)?;
    for value in 0..=255 {
        let number = match SETS.contains(&value) {
            true => 0,
            false => TRAILER_WRONG,
        };
        let book = small_book().under(value);
        checkpoints.every_call(exchange, rng, &book, number)?;
    }
    exchange.case("every value of the bytes about the set, under each set");
    for (set, place) in SETS
        .into_iter()
        .flat_map(|set| UNNAMED.map(|place| (set, place)))
    {
        let mut book = small_book().under(set);
        let place = book.len() - LINE + place;
        for value in 1..=255 {
            book[place] = value;
            checkpoints.every_call(exchange, rng, &book, TRAILER_WRONG)?;
        }
    }
    Ok(())
}
