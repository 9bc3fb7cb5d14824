//! Every value of a unit's flags, with other faults of the book beside it: 22
//! comes after 20 and 21 and before 23.

use super::super::every_call::Checkpoints;
use crate::draft::{Draft, DRY, LINE, MONITORED};
use crate::exchange::{Exchange, Outcome};
use crate::job;
use crate::random::Random;
use crate::sample::small_book;

const SOUND: [u8; 3] = [0, MONITORED, MONITORED | DRY];

/// The lines that are wrong too, in their last byte, and the number for them.
const BESIDE: [(&[Place], u64); 4] = [
    (&[], 0),
    (&[Place::FuelLine], 23),
    (&[Place::Trailer], 21),
    (&[Place::FuelLine, Place::Trailer], 21),
];

#[derive(Clone, Copy)]
enum Place {
    FuelLine,
    Trailer,
}

impl Place {
    fn last_byte(self, draft: &Draft) -> usize {
        let fuels = draft.records.len() + draft.units.len();
        let line = match self {
            Place::FuelLine => fuels,
            Place::Trailer => fuels + draft.fuels.len(),
        };
        LINE * (line + 1) - 1
    }
}

pub fn run(exchange: &mut Exchange, rng: &mut Random) -> Outcome<()> {
    exchange.case("every value of the flags of each unit, other lines wrong beside it");
    let checkpoints = Checkpoints::of_small_book(exchange, rng)?;
    for unit in 0..small_book().units.len() {
        for flags in 0..=u8::MAX {
            for (wrong, number) in BESIDE {
                let (book, number) = (flagged(unit, flags, wrong), smallest(flags, number));
                checkpoints.every_call(exchange, rng, &book, number)?;
            }
            let mut short = flagged(unit, flags, &[]);
            short.pop();
            checkpoints.every_call(exchange, rng, &short, 20)?;
        }
    }
    exchange.case("every hour of the book with each sound value of the flags");
    for unit in 0..small_book().units.len() {
        for flags in SOUND {
            let book = flagged(unit, flags, &[]);
            job::everything(exchange, rng, &book, small_book().records.len())?;
        }
    }
    Ok(())
}

fn flagged(unit: usize, flags: u8, wrong: &[Place]) -> Vec<u8> {
    let mut draft = small_book();
    draft.units[unit][2] = flags;
    let mut book = draft.bytes();
    for place in wrong {
        book[place.last_byte(&draft)] = 1;
    }
    book
}

fn smallest(flags: u8, beside: u64) -> u64 {
    match (SOUND.contains(&flags), beside) {
        (false, 0 | 23) => 22,
        _ => beside,
    }
}
