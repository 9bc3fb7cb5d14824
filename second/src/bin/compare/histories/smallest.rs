//! "The smallest number that applies to a call wins": every combination of a
//! wrong book, a wrong checkpoint and a wrong output buffer.

use second::answer::{Call, Frame};

use crate::draft::{unit, Draft, DRY, LINE, SET_PLACE};
use crate::exchange::{Exchange, Outcome};
use crate::expectation::Field;
use crate::job::{self, CHECKPOINT};
use crate::random::Random;
use crate::random_books;

/// Of an output buffer that nothing could be meant for.
const LONG: usize = 131_072;

/// A byte string and the number that it brings about, 0 if none.
type Numbered = (Vec<u8>, u64);

pub fn run(exchange: &mut Exchange, rng: &mut Random) -> Outcome<()> {
    exchange.case("the smallest number wins");
    let draft = sound_draft(rng);
    let book = draft.bytes();
    let start = job::fresh(exchange, &book, &rng.junk(CHECKPOINT))?;
    let end = job::wake(
        exchange,
        &book,
        &start.output,
        u32::MAX,
        &rng.junk(CHECKPOINT),
    )?;
    for book in books(&draft) {
        for checkpoint in checkpoints(&start.output, &end.output) {
            let near = [CHECKPOINT, 0, 1, CHECKPOINT - 1, CHECKPOINT + 1];
            for length in near.into_iter().chain([LONG]) {
                let output = (rng.junk(length), if length == CHECKPOINT { 0 } else { 32 });
                calls(exchange, &book, &checkpoint, &output)?;
            }
        }
    }
    Ok(())
}

fn sound_draft(rng: &mut Random) -> Draft {
    let mut draft = random_books::listing(rng);
    draft.units = vec![unit(7, false, 2_500)];
    draft.records = random_books::counted_records(rng, &draft, 5);
    draft
}

/// The sound book, and books with one or several things wrong.
fn books(draft: &Draft) -> Vec<Numbered> {
    let sound = draft.bytes();
    let fuels = LINE * (draft.records.len() + draft.units.len());
    let units = LINE * draft.records.len();
    let trailer = sound.len() - LINE;
    let spoilt = |places: &[usize]| {
        let mut book = sound.clone();
        places.iter().for_each(|&place| book[place + LINE - 1] = 1);
        book
    };
    let short = sound[..sound.len() - 1].to_vec();
    let third_set = |mut book: Vec<u8>| {
        book[trailer + SET_PLACE] = 2;
        book
    };
    let flagged = |flags: u8, mut book: Vec<u8>| {
        book[units + 2] = flags;
        book
    };
    vec![
        (sound.clone(), 0),
        (short.clone(), 20),
        (Vec::new(), 20),
        (spoilt(&[trailer]), 21),
        (spoilt(&[units, fuels, trailer]), 21),
        (third_set(sound.clone()), 21),
        (third_set(spoilt(&[units, fuels])), 21),
        (third_set(short), 20),
        (spoilt(&[units]), 22),
        (spoilt(&[units, fuels]), 22),
        (flagged(DRY, sound.clone()), 22),
        (flagged(DRY, spoilt(&[fuels])), 22),
        (flagged(DRY, spoilt(&[trailer])), 21),
        (flagged(4, sound.clone()), 22),
        (spoilt(&[fuels]), 23),
        (spoilt(&[0, fuels]), 23),
    ]
}

fn checkpoints(start: &[u8], end: &[u8]) -> Vec<Numbered> {
    let mut unsound = end.to_vec();
    unsound[95] = 1;
    let mut long_and_unsound = unsound.clone();
    long_and_unsound.push(0);
    vec![
        (start.to_vec(), 0),
        (end.to_vec(), 0),
        (Vec::new(), 30),
        (end[..CHECKPOINT - 1].to_vec(), 30),
        (long_and_unsound, 30),
        (unsound, 31),
    ]
}

fn smallest(numbers: &[u64]) -> u64 {
    let given = numbers.iter().copied().filter(|&number| number > 0);
    given.min().unwrap_or(0)
}

/// "A fresh start knows 20 to 23 and 32, a wake 20 to 32, a report 20 to 31,
/// 40, 41"; one record knows 20 to 23, and the records left 20 to 23, 30, 31.
fn calls(
    exchange: &mut Exchange,
    book: &Numbered,
    checkpoint: &Numbered,
    output: &Numbered,
) -> Outcome<()> {
    let unfinished = if checkpoint.0.starts_with(&[0]) {
        40
    } else {
        0
    };
    let mut expected = vec![
        (Call::Fresh, smallest(&[book.1, output.1])),
        (Call::Wake, smallest(&[book.1, checkpoint.1, output.1])),
        (Call::Report, smallest(&[book.1, checkpoint.1, unfinished])),
        (Call::Record, book.1),
    ];
    if exchange.run.settings.asks_left {
        expected.push((Call::Left, smallest(&[book.1, checkpoint.1])));
    }
    for (call, number) in expected {
        let frame = Frame {
            call,
            argument: u32::from(matches!(call, Call::Wake | Call::Record)),
            book: &book.0,
            checkpoint: &checkpoint.0,
            output: &output.0,
        };
        exchange.hold(&frame, vec![Field::Number.is(number)])?;
    }
    Ok(())
}
