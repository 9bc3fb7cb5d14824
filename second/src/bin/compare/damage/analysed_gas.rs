//! Damage of a small book with analysed gas, in its records and in the fuel lines whose
//! molar volume they take.

use std::ops::Range;

use super::edits::{self, single_bytes, Edit};
use super::{damaged_book, sound, Sound};
use crate::draft::{LINE, MVC_PLACE};
use crate::exchange::{Exchange, Outcome};
use crate::job::{self, CHECKPOINT};
use crate::random::Random;
use crate::sample::small_book_with_analysed_gas;

const RANDOM_TIMES: usize = 500;

/// A line of the book, those of its bytes that are damaged, and the records that tell of
/// it.
const LINES: [(&str, usize, Range<usize>, &[u32]); 6] = [
    ("analysed gas with a low heat value", 0, 0..LINE, &[0]),
    ("analysed gas with nothing else measured", 1, 0..LINE, &[1]),
    (
        "kind to month of analysed gas, beside an hour",
        2,
        0..8,
        &[2, 3],
    ),
    ("the fuel line of analysed natural gas", 8, 0..LINE, &[0]),
    (
        "an odd molar volume and what follows it",
        9,
        MVC_PLACE..LINE,
        &[1],
    ),
    (
        "a liquid's molar volume and what follows it",
        10,
        MVC_PLACE..LINE,
        &[0],
    ),
];

const EDITS: [(&str, Edit); 3] = [
    ("random damage beside analysed gas", edits::damage),
    ("small changes beside analysed gas", edits::nudge),
    ("lines moved about, analysed gas", edits::move_lines),
];

pub fn run(exchange: &mut Exchange, rng: &mut Random) -> Outcome<()> {
    exchange.case("the sound run, analysed gas");
    let sound = sound(exchange, small_book_with_analysed_gas(), 1)?;
    damaged_book(exchange, rng, &sound.book, &sound)?;
    for (name, line, bytes, asked) in LINES {
        exchange.case(format!("every value of every byte of {name}"));
        let places = LINE * line + bytes.start..LINE * line + bytes.end;
        single_bytes(&sound.book, places, |book| {
            for index in asked {
                job::record(exchange, book, *index, Vec::new())?;
            }
            let junk = rng.junk(CHECKPOINT);
            job::wake(exchange, book, &sound.middle, u32::MAX, &junk)?;
            Ok(())
        })?;
    }
    random_edits(exchange, rng, &sound)
}

/// Up to the trailer.
fn random_edits(exchange: &mut Exchange, rng: &mut Random, sound: &Sound) -> Outcome<()> {
    let trailer = sound.book.len() - LINE;
    for (name, edit) in EDITS {
        exchange.case(name);
        for _ in 0..RANDOM_TIMES * exchange.run.settings.times {
            let mut book = sound.book.clone();
            edit(rng, &mut book[..trailer]);
            damaged_book(exchange, rng, &book, sound)?;
        }
    }
    Ok(())
}
