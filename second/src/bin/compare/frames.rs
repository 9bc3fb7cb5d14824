//! Group 7: frames of the greatest length, mostly book, checkpoint or output buffer, and
//! heads past it, at which the other program must stop.

use second::answer::{Call, Frame};
use second::replay::{encode, FRAME_HEAD, MOST_BYTES};

use crate::draft::{put, Draft, FIRST_SET, LONGEST_BOOK};
use crate::exchange::{Exchange, Outcome};
use crate::expectation::Field;
use crate::job::{self, CHECKPOINT};
use crate::random::Random;
use crate::repeats::{monitored, Kind};

/// The longest that a part could be once, whatever the others were.
const ONCE_MOST: usize = 131_072;
const MOST: usize = MOST_BYTES as usize;

/// A call, and the numbers it has for a long book, checkpoint and output buffer.
const CALLS: [(Call, [u64; 3]); 4] = [
    (Call::Fresh, [20, 0, 32]),
    (Call::Wake, [20, 30, 32]),
    (Call::Report, [20, 30, 40]),
    (Call::Record, [20, 0, 0]),
];

pub fn run(exchange: &mut Exchange, rng: &mut Random) -> Outcome<()> {
    let book = small_book().bytes();
    let junk = rng.junk(CHECKPOINT);
    exchange.case("parts longer than 131,072 bytes");
    let start = job::fresh(exchange, &book, &junk)?.output.clone();
    let parts = [book, start, junk];
    for length in [ONCE_MOST + 1, MOST / 2 + 1] {
        each_part(exchange, rng, &parts, |_| length)?;
    }
    exchange.case("5,242,880 bytes in all, with the other parts and without");
    each_part(exchange, rng, &parts, |others| MOST - others)?;
    for place in 0..parts.len() {
        let mut alone = [const { Vec::new() }; 3];
        alone[place] = rng.junk(MOST);
        for (call, _) in CALLS {
            exchange.ask(&frame(call, &alone))?;
        }
    }
    beside_the_longest_book(exchange, rng)
}

fn small_book() -> Draft {
    Draft {
        records: vec![Kind::Hours.record((1, 1))],
        units: monitored([1]),
        fuels: Vec::new(),
        year: 2016,
        warming_set: FIRST_SET,
    }
}

fn frame(call: Call, parts: &[Vec<u8>; 3]) -> Frame<'_> {
    let [book, checkpoint, output] = parts;
    Frame {
        call,
        argument: 0,
        book,
        checkpoint,
        output,
    }
}

/// Every call with each part in turn as long as `length` says beside the others, in which
/// nothing is wrong. It is no length that a book may have.
fn each_part(
    exchange: &mut Exchange,
    rng: &mut Random,
    parts: &[Vec<u8>; 3],
    length: impl Fn(usize) -> usize,
) -> Outcome<()> {
    for place in 0..parts.len() {
        let mut parts = parts.clone();
        parts[place].clear();
        let others = parts.iter().map(Vec::len).sum();
        parts[place] = rng.junk(length(others));
        for (call, numbers) in CALLS {
            exchange.hold(&frame(call, &parts), vec![Field::Number.is(numbers[place])])?;
        }
    }
    Ok(())
}

/// A frame that has room for more than a checkpoint and an output buffer.
fn beside_the_longest_book(exchange: &mut Exchange, rng: &mut Random) -> Outcome<()> {
    exchange.case("5,242,880 bytes in all, with the longest book");
    let mut draft = small_book();
    draft.records = vec![Kind::Hours.record((1, 1)); draft.room(LONGEST_BOOK)];
    let book = draft.bytes();
    let junk = rng.junk(CHECKPOINT);
    let start = job::fresh(exchange, &book, &junk)?.output.clone();
    let rest = MOST - LONGEST_BOOK - CHECKPOINT;
    let long_checkpoint = [book.clone(), rng.junk(rest), junk];
    let long_output = [book, start, rng.junk(rest)];
    for (call, [_, checkpoint, output]) in CALLS {
        let number = vec![Field::Number.is(checkpoint)];
        exchange.hold(&frame(call, &long_checkpoint), number)?;
        let number = vec![Field::Number.is(output)];
        exchange.hold(&frame(call, &long_output), number)?;
    }
    Ok(())
}

/// A head that breaks the rule of lengths, and what comes after it.
pub struct Stop {
    pub name: &'static str,
    lengths: [u32; 3],
    is_followed: bool,
}

const fn stop(name: &'static str, lengths: [u32; 3]) -> Stop {
    Stop {
        name,
        lengths,
        is_followed: false,
    }
}

const fn followed(name: &'static str, lengths: [u32; 3]) -> Stop {
    Stop {
        is_followed: true,
        ..stop(name, lengths)
    }
}

const SHORT: u32 = CHECKPOINT as u32;
/// A byte too many beside two short parts.
const LONG: u32 = MOST_BYTES + 1 - 2 * SHORT;
/// A third of 5,242,881.
const LIKE: u32 = 1_747_627;

pub const STOPS: [Stop; 10] = [
    stop("a byte too many, all of it book", [MOST_BYTES + 1, 0, 0]),
    stop("a byte too many, mostly book", [LONG, SHORT, SHORT]),
    stop("a byte too many, mostly checkpoint", [SHORT, LONG, SHORT]),
    stop(
        "a byte too many, mostly output buffer",
        [SHORT, SHORT, LONG],
    ),
    followed(
        "a byte too many, with a frame behind it",
        [LONG, SHORT, SHORT],
    ),
    followed(
        "a byte too many in three like parts, with a frame behind it",
        [LIKE; 3],
    ),
    stop("one part as long as can be", [0, 0, u32::MAX]),
    stop("all parts as long as can be", [u32::MAX; 3]),
    stop("2^32 in all", [u32::MAX, 1, 0]),
    stop("2^32 and 96 in all", [1 << 31, 96, 1 << 31]),
];

impl Stop {
    /// Two frames, and then the head.
    pub fn run(&self, exchange: &mut Exchange) -> Outcome<()> {
        exchange.case(format!("stops at a head, {}", self.name));
        let book = small_book().bytes();
        let start = job::fresh(exchange, &book, &[0; CHECKPOINT])?;
        let after = job::wake(exchange, &book, &start.output, 1, &[0; CHECKPOINT])?;
        let mut bytes = vec![0; FRAME_HEAD];
        bytes[0] = Call::Report as u8;
        for (place, length) in [8, 12, 16].into_iter().zip(self.lengths) {
            put(&mut bytes, place, &length.to_le_bytes());
        }
        if self.is_followed {
            let lengths = self.lengths.map(|length| length as usize);
            bytes.resize(FRAME_HEAD + lengths.iter().sum::<usize>(), 0);
            bytes.extend(encode(&job::report_frame(&book, &after.output, &[])));
        }
        exchange.stop(bytes)
    }
}
