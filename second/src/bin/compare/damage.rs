//! Group 3: every single-byte damage of a small book and of checkpoints of
//! its run, every length, and random damage of several bytes.

pub mod analysed_gas;
mod edits;
pub mod repeats;

use crate::draft::{Draft, LINE};
use crate::exchange::{Exchange, Outcome};
use crate::job::{self, CHECKPOINT};
use crate::random::Random;
use crate::sample::{small_book, small_book_with_low_heat};
use edits::Edit;

const RANDOM_TIMES: usize = 12_000;

/// In the small book.
const HOUR_WITH_MOISTURE: usize = 4;

/// The small book, and checkpoints within and after its run.
struct Sound {
    draft: Draft,
    book: Vec<u8>,
    middle: Vec<u8>,
    end: Vec<u8>,
}

/// In two wakes, the first of so many records. The run is made by asking, so that its
/// calls are compared too.
fn sound(exchange: &mut Exchange, draft: Draft, first_budget: u32) -> Outcome<Sound> {
    let book = draft.bytes();
    let junk = [0xA5; CHECKPOINT];
    let start = job::fresh(exchange, &book, &junk)?;
    let middle = job::wake(exchange, &book, &start.output, first_budget, &junk)?;
    let end = job::wake(exchange, &book, &middle.output, u32::MAX, &junk)?;
    Ok(Sound {
        draft,
        book,
        middle: middle.output.clone(),
        end: end.output.clone(),
    })
}

pub fn run(exchange: &mut Exchange, rng: &mut Random) -> Outcome<()> {
    exchange.case("the sound run");
    let whole = sound(exchange, small_book(), 2)?;
    // A month of 13 sets record 1 aside, so that its index and reason stand
    // in the checkpoints.
    let mut draft = small_book();
    draft.records[1][6] = 13;
    let with_one_set_aside = sound(exchange, draft, 2)?;
    let with_low_heat = sound(exchange, small_book_with_low_heat(), 2)?;
    exchange.case("every value of every byte of an hour with moisture");
    single_bytes_of_line(exchange, rng, &whole, HOUR_WITH_MOISTURE)?;
    exchange.case("every value of every byte of a fuel record with a low heat value");
    single_bytes_of_line(exchange, rng, &with_low_heat, 0)?;
    repeats::hours(exchange, rng)?;
    repeats::anodes(exchange, rng)?;
    analysed_gas::run(exchange, rng)?;
    let lines = 0..whole.book.len() / LINE;
    for line in lines.filter(|&line| line != HOUR_WITH_MOISTURE) {
        exchange.case(format!(
            "every value of every byte of line {line} of the book"
        ));
        single_bytes_of_line(exchange, rng, &whole, line)?;
    }
    single_bytes_of_checkpoints(exchange, rng, &whole, "all counted")?;
    single_bytes_of_checkpoints(exchange, rng, &with_one_set_aside, "one set aside")?;
    lengths(exchange, rng, &whole)?;
    random_in_book(exchange, rng, &[&whole, &with_low_heat])?;
    random_in_checkpoints(exchange, rng, &[whole, with_one_set_aside])
}

fn single_bytes_of_line(
    exchange: &mut Exchange,
    rng: &mut Random,
    sound: &Sound,
    line: usize,
) -> Outcome<()> {
    let mut book = sound.book.clone();
    for place in LINE * line..LINE * (line + 1) {
        for value in 0..=255 {
            book[place] = value;
            damaged_book(exchange, rng, &book, sound)?;
        }
        book[place] = sound.book[place];
    }
    Ok(())
}

fn damaged_book(
    exchange: &mut Exchange,
    rng: &mut Random,
    book: &[u8],
    sound: &Sound,
) -> Outcome<()> {
    for index in 0..sound.draft.records.len() as u32 {
        job::record(exchange, book, index, Vec::new())?;
    }
    job::whole(exchange, rng, book, Vec::new())?;
    with_checkpoint(exchange, rng, book, &sound.middle)
}

/// A wake and a report from a checkpoint, sound or not.
fn with_checkpoint(
    exchange: &mut Exchange,
    rng: &mut Random,
    book: &[u8],
    checkpoint: &[u8],
) -> Outcome<()> {
    let junk = rng.junk(CHECKPOINT);
    job::wake(exchange, book, checkpoint, 1, &junk)?;
    exchange.ask(&job::report_frame(book, checkpoint, &junk))?;
    Ok(())
}

fn single_bytes_of_checkpoints(
    exchange: &mut Exchange,
    rng: &mut Random,
    sound: &Sound,
    run: &str,
) -> Outcome<()> {
    for (name, original) in [("middle", &sound.middle), ("end", &sound.end)] {
        exchange.case(format!(
            "every value of every byte of the checkpoint at the {name}, {run}"
        ));
        let mut checkpoint = original.clone();
        for place in 0..CHECKPOINT {
            for value in 0..=255 {
                checkpoint[place] = value;
                with_checkpoint(exchange, rng, &sound.book, &checkpoint)?;
            }
            checkpoint[place] = original[place];
        }
    }
    Ok(())
}

fn lengths(exchange: &mut Exchange, rng: &mut Random, sound: &Sound) -> Outcome<()> {
    exchange.case("the book at every length");
    for length in 0..=sound.book.len() + 3 * LINE {
        for filling in [0, 0xA5] {
            let mut book = sound.book.clone();
            book.resize(length, filling);
            damaged_book(exchange, rng, &book, sound)?;
            let cut = &sound.book[sound.book.len().saturating_sub(length)..];
            damaged_book(exchange, rng, cut, sound)?;
        }
    }
    exchange.case("checkpoints at every length");
    for length in 0..=2 * CHECKPOINT {
        for original in [&sound.middle, &sound.end] {
            let mut checkpoint = original.clone();
            checkpoint.resize(length, 0);
            with_checkpoint(exchange, rng, &sound.book, &checkpoint)?;
        }
    }
    exchange.case("output buffers of every length");
    for length in 0..=2 * CHECKPOINT {
        let junk = rng.junk(length);
        job::fresh(exchange, &sound.book, &junk)?;
        job::wake(exchange, &sound.book, &sound.middle, 1, &junk)?;
        exchange.ask(&job::report_frame(&sound.book, &sound.end, &junk))?;
    }
    Ok(())
}

/// In books that have as many lines of each kind.
fn random_in_book(exchange: &mut Exchange, rng: &mut Random, sounds: &[&Sound]) -> Outcome<()> {
    let times = RANDOM_TIMES * exchange.run.settings.times;
    let records = 0..LINE * sounds[0].draft.records.len();
    let everywhere = 0..sounds[0].book.len();
    let kinds: [(&str, Edit, _); 4] = [
        (
            "random damage anywhere in the book",
            edits::damage,
            &everywhere,
        ),
        (
            "random damage in the records alone",
            edits::damage,
            &records,
        ),
        (
            "small changes in the book that mostly keep it sound",
            edits::nudge,
            &everywhere,
        ),
        (
            "lines of the book moved about",
            edits::move_lines,
            &everywhere,
        ),
    ];
    for (name, edit, range) in kinds {
        exchange.case(name);
        for sound in sounds.iter().cycle().take(times) {
            let mut book = sound.book.clone();
            edit(rng, &mut book[range.clone()]);
            damaged_book(exchange, rng, &book, sound)?;
        }
    }
    Ok(())
}

fn random_in_checkpoints(
    exchange: &mut Exchange,
    rng: &mut Random,
    sounds: &[Sound],
) -> Outcome<()> {
    let times = RANDOM_TIMES * exchange.run.settings.times;
    let kinds: [(&str, Edit); 2] = [
        ("random damage in checkpoints", edits::damage),
        (
            "small changes in checkpoints that mostly keep them sound",
            edits::nudge,
        ),
    ];
    for (name, edit) in kinds {
        exchange.case(name);
        for sound in sounds {
            for original in [&sound.middle, &sound.end] {
                for _ in 0..times {
                    let mut checkpoint = original.clone();
                    edit(rng, &mut checkpoint);
                    with_checkpoint(exchange, rng, &sound.book, &checkpoint)?;
                }
            }
        }
    }
    Ok(())
}
