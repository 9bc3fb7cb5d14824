//! R rounded from other multiples than 1,000: halves of every odd multiple, of
//! every power of two, and random pairs about a half.

use super::{book, counted, held, DRY, HOURS_PER_BOOK};
use crate::bits::single;
use crate::draft::{hour, with_moisture, Line};
use crate::exchange::{Exchange, Outcome};
use crate::expectation::Expectation;
use crate::job;
use crate::near_halves::{large_near_half, near_half, near_half_of_one, odd_multiple};
use crate::random::Random;

const PERCENT_HALF: u32 = 0x3F00_0000;

/// The random hours of a case, and how many books hold them.
type Case = (&'static str, usize, fn(&mut Random) -> Line);

const CASES: [Case; 4] = [
    ("halves of R of an odd multiple, random", 20, |rng| {
        let multiple = odd_multiple(rng);
        dry_hour(multiple, near_half(rng, multiple))
    }),
    ("halves of R of any multiple, random", 20, |rng| {
        let multiple = 1 + rng.below(1_000) as u16;
        dry_hour(multiple, near_half(rng, multiple))
    }),
    ("large R of an odd multiple, next to a half", 10, |rng| {
        let multiple = odd_multiple(rng);
        dry_hour(multiple, large_near_half(rng, multiple))
    }),
    (
        "R of 0 and of 1 of an odd multiple, next to a half",
        10,
        |rng| {
            let multiple = odd_multiple(rng);
            dry_hour(multiple, near_half_of_one(rng, multiple))
        },
    ),
];

pub fn run(exchange: &mut Exchange, rng: &mut Random) -> Outcome<()> {
    exchange.case("halves of R of each odd multiple, and the singles next to them");
    let odd_multiples = (0..500).map(|half| 2 * half + 1);
    let hours: Vec<_> = odd_multiples.flat_map(about_halves).collect();
    held(exchange, rng, &hours)?;
    exchange.case("halves of R of each power of two, and the singles next to them");
    let powers_of_two = (0..10).map(|twos| 1 << twos);
    let hours: Vec<_> = powers_of_two.flat_map(about_halves).collect();
    held(exchange, rng, &hours)?;
    for (name, books, random_hour) in CASES {
        exchange.case(name);
        for _ in 0..books * exchange.run.settings.times {
            let hours = (0..HOURS_PER_BOOK).map(|_| random_hour(rng)).collect();
            let book = book(hours).bytes();
            job::everything(exchange, rng, &book, HOURS_PER_BOOK)?;
        }
    }
    Ok(())
}

fn dry_hour(multiple: u16, [percent, flow]: [u32; 2]) -> Line {
    with_moisture(hour(DRY, 1, percent, flow), 1_000 - multiple)
}

/// With a flow of 1, 3, 5 or 7 over the twos in the multiple, 0.5 x flow x
/// multiple is an odd number of halves; with the singles before and after that
/// flow it lies below and above the half.
fn about_halves(multiple: u16) -> Vec<(Line, Vec<Expectation>)> {
    let twos = multiple.trailing_zeros();
    let odd_multiple = u64::from(multiple >> twos);
    let mut hours = Vec::new();
    for over in [1, 3, 5, 7] {
        let flow = single(over, -(twos as i32));
        let below = u64::from(over) * odd_multiple / 2;
        let even = below + below % 2;
        for (flow, r) in [(flow - 1, below), (flow, even), (flow + 1, below + 1)] {
            hours.push((dry_hour(multiple, [PERCENT_HALF, flow]), counted(r)));
        }
    }
    hours
}
