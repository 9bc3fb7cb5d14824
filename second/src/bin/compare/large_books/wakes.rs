//! Wakes over large books: from and to the places where a count of records or of bytes
//! leaves its bits, by small and great budgets, from the latest checkpoint, from older
//! ones and from ones of another book.

use std::collections::BTreeMap;

use super::{hours_up_to, listing, repeats, PAST_16_BITS};
use crate::draft::{Draft, FULL_BOOK, LINE, LONGEST_BOOK};
use crate::exchange::{Exchange, Outcome};
use crate::histories::brought;
use crate::job::{self, CHECKPOINT};
use crate::random::Random;
use crate::random_books;

/// Of 65,536 records, and as many more as fill the book.
const MIDDLING_BOOK: usize = LINE * (PAST_16_BITS + 100);

const PLACES: [u32; 7] = [1, 2_047, 2_048, 2_049, 65_535, 65_536, 65_537];

/// The last passes 32 bits when it is added to any place.
const BUDGETS: [u32; 7] = [0, 1, 2, 65_535, 65_536, 65_537, u32::MAX];

/// Wakes from checkpoints of all ages.
const WAKES: usize = 12;

pub fn run(exchange: &mut Exchange, rng: &mut Random) -> Outcome<()> {
    let drafts = [
        ("every kind of record", counted(rng, MIDDLING_BOOK)),
        ("hours that stand twice", twice(MIDDLING_BOOK)),
    ];
    for (name, draft) in drafts {
        exchange.case(format!("wakes from each place by each budget, {name}"));
        each_budget(exchange, rng, &draft)?;
    }
    let drafts = [
        ("every kind of record", counted(rng, LONGEST_BOOK)),
        ("the second half as the first", repeats::halves_alike()),
    ];
    for (name, draft) in drafts {
        exchange.case(format!("wakes from older checkpoints, {name}"));
        older(exchange, rng, &draft)?;
    }
    foreign(exchange, rng)
}

/// Records of every kind, all of which count.
fn counted(rng: &mut Random, length: usize) -> Draft {
    let mut draft = listing(rng);
    let room = draft.room(length);
    draft.records = random_books::counted_records(rng, &draft, room);
    draft
}

/// Each hour at once again.
fn twice(length: usize) -> Draft {
    let mut draft = hours_up_to(length);
    for place in (1..draft.records.len()).step_by(2) {
        draft.records[place] = draft.records[place - 1];
    }
    draft
}

fn each_budget(exchange: &mut Exchange, rng: &mut Random, draft: &Draft) -> Outcome<()> {
    let book = draft.bytes();
    let junk = rng.junk(CHECKPOINT);
    let count = draft.records.len() as u32;
    let start = job::fresh(exchange, &book, &junk)?;
    let end = job::wake(exchange, &book, &start.output, u32::MAX, &junk)?;
    for place in PLACES.into_iter().chain([count - 1, count]) {
        let middle = job::wake(exchange, &book, &start.output, place, &junk)?;
        exchange.ask(&job::report_frame(&book, &middle.output, &[]))?;
        for budget in BUDGETS {
            let after = job::wake(exchange, &book, &middle.output, budget, &junk)?;
            let is_end = budget < u32::MAX || after.output == end.output;
            exchange.state(is_end, "second's last checkpoint depends on the budgets")?;
        }
    }
    exchange.ask(&job::report_frame(&book, &end.output, &[]))?;
    Ok(())
}

fn budget(rng: &mut Random) -> u32 {
    match rng.below(5) {
        0 => rng.below(4) as u32,
        1 => rng.pick(&BUDGETS),
        2 => PAST_16_BITS as u32 - rng.below(3_000) as u32,
        _ => rng.below(60_000) as u32,
    }
}

/// Each checkpoint, the latest every second time, leads on to another. The one at a place
/// is the same bytes whatever the history.
fn older(exchange: &mut Exchange, rng: &mut Random, draft: &Draft) -> Outcome<()> {
    let book = draft.bytes();
    let start = job::fresh(exchange, &book, &rng.junk(CHECKPOINT))?;
    let mut checkpoints = vec![start.output.clone()];
    let mut at_place: BTreeMap<Vec<u8>, Vec<u8>> = BTreeMap::new();
    for _ in 0..WAKES * exchange.run.settings.times {
        let from = match rng.one_in(2) {
            true => checkpoints.len() - 1,
            false => rng.index(checkpoints.len()),
        };
        let budget = budget(rng);
        let junk = rng.junk(CHECKPOINT);
        let after = job::wake(exchange, &book, &checkpoints[from], budget, &junk)?;
        let checkpoint = after.output.clone();
        let known = at_place
            .entry(checkpoint[..4].to_vec())
            .or_insert_with(|| checkpoint.clone());
        let same = *known == checkpoint;
        exchange.state(
            same,
            "second's checkpoint at a place depends on the history",
        )?;
        exchange.ask(&job::report_frame(&book, &checkpoint, &[]))?;
        checkpoints.push(checkpoint);
    }
    Ok(())
}

/// Lengths of which 16 bits are the same among them.
pub fn foreign(exchange: &mut Exchange, rng: &mut Random) -> Outcome<()> {
    exchange.case("checkpoints of a book of another length");
    let lengths = [
        (FULL_BOOK, LONGEST_BOOK),
        (LONGEST_BOOK, FULL_BOOK),
        (FULL_BOOK + LINE, 2 * FULL_BOOK + LINE),
        (2 * FULL_BOOK + LINE, FULL_BOOK + LINE),
        (LONGEST_BOOK - LINE, LONGEST_BOOK),
    ];
    for (home, abroad) in lengths {
        let [one, other] = [home, abroad].map(hours_up_to);
        brought(exchange, rng, &one, &other)?;
    }
    Ok(())
}
