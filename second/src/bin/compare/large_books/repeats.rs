//! Hours and anodes that stand twice in the longest book, next to each other about the
//! places where a count or a length leaves its bits, and as far apart as can be.

use super::{draft_of, hours, hours_up_to, PAST_16_BITS, SPARE_UNIT};
use crate::draft::{Draft, Line, LINE, LONGEST_BOOK};
use crate::exchange::{Exchange, Outcome};
use crate::expectation::withheld;
use crate::job::{self, CHECKPOINT};
use crate::random::Random;
use crate::repeats::{monitored, of_reason, Kind, COUNTED, KINDS, REPEATED};

/// The last place in a longest book of all units.
const LAST: usize = LONGEST_BOOK / LINE - 2 - SPARE_UNIT as usize;

/// Places of the first and the later of two that are alike. Those below 2,048 are such as
/// a full book has.
type Pair = (usize, usize);

const PAIRS: [&[Pair]; 4] = [
    &[(0, LAST)],
    &[(2_048, LAST - 1), (PAST_16_BITS, LAST)],
    &[
        (0, 2_048),
        (1, PAST_16_BITS + 1),
        (2_047, PAST_16_BITS),
        (PAST_16_BITS - 1, LAST),
    ],
    &[
        (2_047, 2_048),
        (PAST_16_BITS - 1, PAST_16_BITS),
        (LAST - 1, LAST),
    ],
];

pub fn run(exchange: &mut Exchange, rng: &mut Random) -> Outcome<()> {
    for kind in KINDS {
        for pairs in PAIRS {
            let places = pairs
                .iter()
                .map(|(first, later)| format!("{first} and {later}"));
            let places = places.collect::<Vec<String>>().join(", ");
            exchange.case(format!("the longest book, {} alike: {places}", kind.name()));
            held(exchange, rng, kind, pairs)?;
        }
    }
    exchange.case("the second half of a book as the first");
    let draft = halves_alike();
    let half = draft.records.len() / 2;
    whole(exchange, rng, &draft.bytes(), half)?;
    exchange.case("one hour alone in the longest book");
    let draft = one_alone();
    let last = draft.records.len() as u32 - 1;
    whole(exchange, rng, &draft.bytes(), 1)?;
    job::record(exchange, &draft.bytes(), last, of_reason(REPEATED))?;
    Ok(())
}

/// Hours, of which none stands twice but those of each pair.
fn alike(kind: Kind, pairs: &[Pair]) -> Vec<Line> {
    let mut records = hours(LAST + 1);
    for (number, &(first, later)) in (1..).zip(pairs) {
        for place in [first, later] {
            records[place] = kind.record((SPARE_UNIT, number));
        }
    }
    records
}

/// As long as can be with halves that have as many records.
pub fn halves_alike() -> Draft {
    let mut draft = hours_up_to(LONGEST_BOOK);
    let half = draft.records.len() / 2;
    draft.records.truncate(half);
    draft.records.extend_from_within(..);
    draft
}

fn one_alone() -> Draft {
    let mut draft = draft_of(Vec::new());
    draft.units = monitored([1]);
    draft.records = vec![Kind::Hours.record((1, 1)); draft.room(LONGEST_BOOK)];
    draft
}

/// The whole job, both of each pair by themselves, and a wake up to the later one and one
/// that goes through it alone.
fn held(exchange: &mut Exchange, rng: &mut Random, kind: Kind, pairs: &[Pair]) -> Outcome<()> {
    let book = draft_of(alike(kind, pairs)).bytes();
    let first_repeat = pairs.iter().map(|(_, later)| *later).min();
    whole(exchange, rng, &book, first_repeat.expect("there is a pair"))?;
    let junk = rng.junk(CHECKPOINT);
    let start = job::fresh(exchange, &book, &junk)?;
    for &(first, later) in pairs {
        job::record(exchange, &book, first as u32, of_reason(COUNTED))?;
        job::record(exchange, &book, later as u32, of_reason(REPEATED))?;
        let middle = job::wake(exchange, &book, &start.output, later as u32, &junk)?;
        let end = job::wake(exchange, &book, &middle.output, 1, &junk)?;
        exchange.ask(&job::report_frame(&book, &end.output, &[]))?;
    }
    Ok(())
}

/// The whole job, whose report is withheld for the first repeat.
fn whole(exchange: &mut Exchange, rng: &mut Random, book: &[u8], first: usize) -> Outcome<()> {
    job::whole(exchange, rng, book, withheld(first as u64, REPEATED))?;
    Ok(())
}
