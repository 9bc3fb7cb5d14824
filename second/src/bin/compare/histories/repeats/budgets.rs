//! Jobs by wakes of one budget, over small books whole, and over full books from
//! their start, their middle and near their end.

use super::book;
use crate::draft::{FULL_BOOK, LAST_HOUR, LAST_MONTH, LINE};
use crate::exchange::{Exchange, Outcome};
use crate::job::{self, CHECKPOINT};
use crate::random::Random;
use crate::repeats::{self, monitored, Judged, Key, Kind, COUNTED};

const BUDGETS: [u32; 8] = [1, 2, 3, 4, 5, 10, 100, u32::MAX];
const BOOKS: usize = 40;
/// So many wakes of a budget from each place of a full book.
const WAKES: usize = 6;

/// The record at a place of a full book of so many.
type Filling = (&'static str, u16, fn(u16, u16) -> (Kind, Key));

const FILLINGS: [Filling; 5] = [
    ("none repeated", 1, |place, _| hour(1, 1 + place)),
    ("the second half as the first", 64, |place, count| {
        let place = place % (count / 2);
        hour(1 + place % 64, 1 + place / 64)
    }),
    (
        "the second half as the first from its end",
        1,
        |place, count| hour(1, 1 + place.min(count - 1 - place)),
    ),
    ("each hour at once again", 2, |place, _| {
        hour(1 + place / 2 % 2, LAST_HOUR - place / 2)
    }),
    (
        "every month's anodes of 64 units between hours, then again",
        64,
        |place, _| match (place % 2, 1 + place / 2 % 64, 1 + place / 128) {
            (0, unit, month) => (Kind::Anodes, (unit, 1 + (month - 1) % LAST_MONTH)),
            (_, unit, number) => hour(unit, number),
        },
    ),
];

fn hour(unit: u16, number: u16) -> (Kind, Key) {
    (Kind::Hours, (unit, number))
}

pub fn small_books(exchange: &mut Exchange, rng: &mut Random) -> Outcome<()> {
    exchange.case("repeats, wakes of one budget over small books");
    for _ in 0..BOOKS * exchange.run.settings.times {
        let draft = book(rng);
        let wakes = draft.records.len();
        by_budgets(exchange, rng, &draft.bytes(), &[0], wakes)?;
    }
    Ok(())
}

pub fn full_books(exchange: &mut Exchange, rng: &mut Random) -> Outcome<()> {
    for (name, units, filling) in FILLINGS {
        exchange.case(format!("wakes of one budget over a full book, {name}"));
        let count = (FULL_BOOK / LINE) as u16 - 1 - units;
        let record = |place| -> Judged {
            let (kind, key) = filling(place, count);
            (kind.record(key), COUNTED)
        };
        let records: Vec<Judged> = (0..count).map(record).collect();
        let book = repeats::book(&monitored(1..=units), &records);
        let places = [0, count / 2, count - 60].map(u32::from);
        by_budgets(exchange, rng, &book, &places, WAKES)?;
    }
    Ok(())
}

/// From each place by each budget.
fn by_budgets(
    exchange: &mut Exchange,
    rng: &mut Random,
    book: &[u8],
    places: &[u32],
    wakes: usize,
) -> Outcome<()> {
    let junk = rng.junk(CHECKPOINT);
    let start = job::fresh(exchange, book, &junk)?;
    let end = job::wake(exchange, book, &start.output, u32::MAX, &junk)?;
    exchange.ask(&job::report_frame(book, &end.output, &[]))?;
    for place in places {
        let middle = job::wake(exchange, book, &start.output, *place, &junk)?;
        for budget in BUDGETS {
            let last = by_budget(exchange, rng, book, &middle.output, [budget, wakes as u32])?;
            let same = last == end.output;
            exchange.state(same, "second's last checkpoint depends on the budgets")?;
        }
    }
    Ok(())
}

/// The checkpoint after so many wakes of a budget, with ones of 0 among them, and one to
/// the end.
fn by_budget(
    exchange: &mut Exchange,
    rng: &mut Random,
    book: &[u8],
    checkpoint: &[u8],
    [budget, wakes]: [u32; 2],
) -> Outcome<Vec<u8>> {
    let junk = rng.junk(CHECKPOINT);
    let mut checkpoint = checkpoint.to_vec();
    for _ in 0..wakes {
        let budget = if rng.one_in(8) { 0 } else { budget };
        let after = job::wake(exchange, book, &checkpoint, budget, &junk)?;
        checkpoint = after.output.clone();
    }
    let end = job::wake(exchange, book, &checkpoint, u32::MAX, &junk)?;
    Ok(end.output.clone())
}
