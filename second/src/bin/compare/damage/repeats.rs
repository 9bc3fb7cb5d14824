//! Damage of a small book whose hours or anodes are repeated, and of the checkpoint
//! that names the first repeat.

use std::ops::Range;

use super::edits::{self, single_bytes, Edit};
use super::{damaged_book, sound, with_checkpoint, Sound};
use crate::draft::{Draft, LINE};
use crate::exchange::{Exchange, Outcome};
use crate::job::{self, CHECKPOINT};
use crate::random::Random;
use crate::sample::{small_book_with_anodes, small_book_with_repeats};

const RANDOM_TIMES: usize = 1_000;

/// A book with repeats, and what of it is damaged.
struct Sample {
    name: &'static str,
    draft: fn() -> Draft,
    /// A line of the book, those of its bytes that are damaged, and the records that
    /// are the same as this one or its unit's, or that damage makes so.
    lines: &'static [(&'static str, usize, Range<usize>, &'static [u32])],
}

const HOURS: Sample = Sample {
    name: "hours",
    draft: small_book_with_repeats,
    lines: &[
        ("an hour that is repeated", 0, 0..LINE, &[0, 1, 3]),
        ("an hour that repeats another", 1, 0..LINE, &[0, 1, 3]),
        ("number and flags of their unit", 6, 0..3, &[0, 1, 3]),
    ],
};

const ANODES: Sample = Sample {
    name: "anodes",
    draft: small_book_with_anodes,
    lines: &[
        ("anodes that are repeated", 0, 0..LINE, &[0, 1]),
        ("anodes that repeat others", 1, 0..LINE, &[1, 3]),
        ("anodes of a wet unit, beside its hour", 2, 0..LINE, &[2, 4]),
        ("number and flags of the anodes' unit", 5, 0..3, &[0, 1, 3]),
    ],
};

/// Records done and set aside, the first of these, and its reason.
const PLACES_OF_COUNTS: Range<usize> = 0..16;

const EDITS: [(&str, Edit); 3] = [
    ("random damage in repeated", edits::damage),
    ("small changes in repeated", edits::nudge),
    ("lines moved about, repeated", edits::move_lines),
];

pub fn hours(exchange: &mut Exchange, rng: &mut Random) -> Outcome<()> {
    damaged(exchange, rng, &HOURS)
}

pub fn anodes(exchange: &mut Exchange, rng: &mut Random) -> Outcome<()> {
    damaged(exchange, rng, &ANODES)
}

/// After the first wake, of one record, the next begins with a repeat.
fn damaged(exchange: &mut Exchange, rng: &mut Random, sample: &Sample) -> Outcome<()> {
    let name = sample.name;
    exchange.case(format!("the sound run, {name} repeated"));
    let sound = sound(exchange, (sample.draft)(), 1)?;
    damaged_book(exchange, rng, &sound.book, &sound)?;
    for (name, line, bytes, asked) in sample.lines {
        exchange.case(format!("every value of every byte of {name}"));
        let places = LINE * line + bytes.start..LINE * line + bytes.end;
        single_bytes(&sound.book, places, |book| {
            for index in *asked {
                job::record(exchange, book, *index, Vec::new())?;
            }
            let junk = rng.junk(CHECKPOINT);
            job::wake(exchange, book, &sound.middle, u32::MAX, &junk)?;
            Ok(())
        })?;
    }
    exchange.case(format!(
        "every value of the first bytes of the checkpoint at the end, {name} repeated"
    ));
    single_bytes(&sound.end, PLACES_OF_COUNTS, |checkpoint| {
        with_checkpoint(exchange, rng, &sound.book, checkpoint)
    })?;
    random_edits(exchange, rng, name, &sound)
}

fn random_edits(
    exchange: &mut Exchange,
    rng: &mut Random,
    name: &str,
    sound: &Sound,
) -> Outcome<()> {
    let records = LINE * sound.draft.records.len();
    for (edit_name, edit) in EDITS {
        exchange.case(format!("{edit_name} {name}"));
        for _ in 0..RANDOM_TIMES * exchange.run.settings.times {
            let mut book = sound.book.clone();
            edit(rng, &mut book[..records]);
            damaged_book(exchange, rng, &book, sound)?;
        }
    }
    Ok(())
}
