//! What was compared of wakes over large books.

use second::answer::Call;
use second::bytes::u32_at;

use super::compared::{Compared, Row, Table, ASIDE, DONE, PAST_16_BITS};
use crate::counts::repeats::asked::Asked;
use crate::draft::{ANODES, HOUR, LONGEST_BOOK};

/// Where a checkpoint names the reason of the first record set aside.
const REASON: usize = 12;
const REPEATED: u8 = 8;

pub const TABLES: [Table; 3] = [
    Table {
        name: "wake over a large book from",
        is_of: is_made,
        rows: &FROM,
    },
    Table {
        name: "wake over a large book to",
        is_of: is_made,
        rows: &TO,
    },
    Table {
        name: "wake over a large book,",
        is_of: is_made,
        rows: &BY,
    },
];

fn is_made(compared: &Compared) -> bool {
    compared.is(Call::Wake) && compared.number == 0
}

/// A full book has no record 2,048.
const FROM: [Row; 12] = [
    ("record 2,047", |wake| wake.before(DONE) == 2_047),
    ("record 2,048", |wake| wake.before(DONE) == 2_048),
    ("record 2,049", |wake| wake.before(DONE) == 2_049),
    ("record 65,535", |wake| wake.before(DONE) == 65_535),
    ("record 65,536", |wake| wake.before(DONE) == 65_536),
    ("record 65,537", |wake| wake.before(DONE) == 65_537),
    ("the last record", |wake| wake.is_last(wake.before(DONE))),
    ("the end", |wake| wake.before(DONE) == wake.records()),
    ("the latest checkpoint, past record 65,536", |wake| {
        is_past(wake) && is_from(wake, |made, place| made == place)
    }),
    ("an older checkpoint, before record 65,536", |wake| {
        !is_past(wake) && is_from(wake, |made, place| made > place)
    }),
    ("an older checkpoint, past record 65,536", |wake| {
        is_past(wake) && is_from(wake, |made, place| made > place)
    }),
    ("a checkpoint with 65,536 or more set aside", |wake| {
        wake.before(ASIDE) >= PAST_16_BITS
    }),
];

const TO: [Row; 6] = [
    ("record 2,048", |wake| wake.after(DONE) == 2_048),
    ("record 65,535", |wake| wake.after(DONE) == 65_535),
    ("record 65,536", |wake| wake.after(DONE) == 65_536),
    ("record 65,537", |wake| wake.after(DONE) == 65_537),
    ("the end of the longest book", |wake| {
        wake.question.book.len() == LONGEST_BOOK && wake.after(DONE) == wake.records()
    }),
    ("65,536 or more set aside", |wake| {
        wake.before(ASIDE) < PAST_16_BITS && wake.after(ASIDE) >= PAST_16_BITS
    }),
];

const BY: [Row; 12] = [
    ("budget 0, past record 65,536", |wake| {
        is_past(wake) && wake.question.argument == 0
    }),
    ("budget 1, past record 65,536", |wake| {
        is_past(wake) && wake.question.argument == 1 && wake.told() == 1
    }),
    ("the greatest budget, past record 65,536", |wake| {
        is_past(wake) && wake.question.argument == u32::MAX && wake.told() > 0
    }),
    ("moving 65,535 records", |wake| wake.told() == 65_535),
    ("moving 65,536 records", |wake| wake.told() == 65_536),
    ("moving 65,537 records", |wake| wake.told() == 65_537),
    ("moving 131,000 records or more", |wake| {
        wake.told() >= 131_000
    }),
    ("over record 2,048", |wake| is_over(wake, 2_048)),
    ("over record 65,536", |wake| is_over(wake, 65_536)),
    ("none set aside in the longest book", |wake| {
        wake.told() >= 131_000 && wake.after(ASIDE) == 0
    }),
    ("of an hour that stands 131,000 records back", |wake| {
        is_of_repeat(wake, HOUR)
    }),
    ("of anodes that stand 131,000 records back", |wake| {
        is_of_repeat(wake, ANODES)
    }),
];

fn is_past(wake: &Compared) -> bool {
    wake.before(DONE) > PAST_16_BITS
}

fn is_over(wake: &Compared, place: u32) -> bool {
    wake.before(DONE) < place && wake.after(DONE) > place
}

/// Whether the one record of a wake is of this kind, and is set aside as one that stands
/// so far back.
fn is_of_repeat(wake: &Compared, kind: u8) -> bool {
    if wake.told() != 1 || wake.after(ASIDE) == wake.before(ASIDE) {
        return false;
    }
    let asked = Asked {
        book: wake.question.book,
        index: wake.before(DONE) as usize,
        reason: wake.answer.output[REASON],
    };
    let is_far = |distance| distance >= 131_000;
    asked.line()[0] == kind && asked.reason == REPEATED && asked.distance().is_some_and(is_far)
}

/// Of the places of the latest checkpoint and of this one, which are of one book.
fn is_from(wake: &Compared, is_so: fn(u32, u32) -> bool) -> bool {
    wake.latest.is_some_and(|made| {
        let place = u32_at(&made.checkpoint, DONE);
        is_so(place, wake.before(DONE)) && made.book == wake.question.book
    })
}
