//! Books about the length of a full book and about the greatest length, with records, unit
//! and fuel lines, and starts at their limits.

use second::answer::{Call, Frame, NO_SUCH_RECORD};
use second::replay::MOST_BYTES;

use super::{draft_of, hours, hours_up_to, PAST_16_BITS, YEAR};
use crate::draft::{
    put, unit, Draft, FuelLine, Line, FIRST_SET, FULL_BOOK, LINE, LONGEST_BOOK, MOST_HEAT,
};
use crate::exchange::{Exchange, Outcome};
use crate::expectation::Field;
use crate::job::{self, CHECKPOINT};
use crate::random::Random;
use crate::repeats::{of_reason, Kind, COUNTED};

const ACCEPTED: [usize; 5] = [
    FULL_BOOK - LINE,
    FULL_BOOK,
    FULL_BOOK + LINE,
    LONGEST_BOOK - LINE,
    LONGEST_BOOK,
];

/// The last leaves room for a checkpoint and an output buffer in its frame.
const TOO_LONG: [usize; 3] = [
    LONGEST_BOOK + LINE,
    LONGEST_BOOK + FULL_BOOK,
    MOST_BYTES as usize - 2 * CHECKPOINT,
];

const RECORDS: [usize; 6] = [
    2_047,
    2_048,
    2_049,
    PAST_16_BITS - 1,
    PAST_16_BITS,
    PAST_16_BITS + 1,
];

/// Unit and fuel lines, and the number that they bring about. 256 more than 64 are 64 in 8
/// bits, and no more than 65,535 can have numbers that rise.
const LINES: [(u16, u16, u64); 8] = [
    (64, 64, 0),
    (65, 64, 22),
    (64, 65, 23),
    (65, 65, 22),
    (256 + 64, 0, 22),
    (0, 256 + 64, 23),
    (u16::MAX, 0, 22),
    (0, u16::MAX, 23),
];

/// Makes other starts of unit and fuel lines out of those of the longest book, and the
/// number that they bring about.
type Starts = (fn([u32; 2]) -> [u32; 2], u64);

const END: u32 = (LONGEST_BOOK - LINE) as u32;

const STARTS: [Starts; 8] = [
    (|starts| starts, 0),
    (|_| [END, END], 0),
    (|[units, fuels]| [units + 16, fuels], 21),
    (|[units, fuels]| [units, fuels - 16], 21),
    (|[_, fuels]| [fuels + LINE as u32, fuels], 21),
    (|[units, _]| [units, LONGEST_BOOK as u32], 21),
    (|[units, fuels]| [units % (1 << 16), fuels], 22),
    (|starts| starts.map(|start| start % (1 << 16)), 22),
];

pub fn run(exchange: &mut Exchange, rng: &mut Random) -> Outcome<()> {
    for length in ACCEPTED {
        exchange.case(format!("a book of {length} bytes"));
        accepted(exchange, rng, &hours_up_to(length))?;
    }
    for length in TOO_LONG {
        exchange.case(format!("a book of {length} bytes, too long"));
        refused(exchange, rng, &hours_up_to(length).bytes())?;
    }
    for length in ACCEPTED.into_iter().chain([LONGEST_BOOK + LINE]) {
        exchange.case(format!("about {length} bytes, no multiple of 32"));
        no_multiples(exchange, rng, &hours_up_to(length).bytes())?;
    }
    for count in RECORDS {
        exchange.case(format!("a book of {count} records"));
        accepted(exchange, rng, &draft_of(hours(count)))?;
    }
    exchange.case("unit and fuel lines in the longest book");
    for (units, fuels, number) in LINES {
        let book = listing(units, fuels).bytes();
        read(exchange, rng, &book, number)?;
    }
    exchange.case("starts of lines in the longest book");
    starts(exchange, rng)
}

/// The whole job, and the records at either end.
fn accepted(exchange: &mut Exchange, rng: &mut Random, draft: &Draft) -> Outcome<()> {
    let book = draft.bytes();
    let count = draft.records.len();
    let kg = Kind::Hours.kilograms() * count as u64;
    let printed = vec![Field::Number.is(0), Field::FossilKg.is(kg)];
    job::whole(exchange, rng, &book, printed)?;
    for index in [0, count - 1] {
        job::record(exchange, &book, index as u32, of_reason(COUNTED))?;
    }
    let none = vec![Field::Method.is(u64::from(NO_SUCH_RECORD))];
    job::record(exchange, &book, count as u32, none)?;
    Ok(())
}

/// Every call, whatever its checkpoint.
fn refused(exchange: &mut Exchange, rng: &mut Random, book: &[u8]) -> Outcome<()> {
    let junk = rng.junk(CHECKPOINT);
    for (call, argument) in [
        (Call::Fresh, 0),
        (Call::Wake, 1),
        (Call::Report, 0),
        (Call::Record, 1),
    ] {
        let frame = Frame {
            call,
            argument,
            book,
            checkpoint: &junk,
            output: &junk,
        };
        exchange.hold(&frame, vec![Field::Number.is(20)])?;
    }
    Ok(())
}

/// The last 32 bytes are a sound trailer still, so nothing but the length is wrong.
fn no_multiples(exchange: &mut Exchange, rng: &mut Random, book: &[u8]) -> Outcome<()> {
    for bytes in [1, LINE - 1] {
        refused(exchange, rng, &book[bytes..])?;
        refused(exchange, rng, &[&vec![0; bytes], book].concat())?;
    }
    Ok(())
}

/// A fresh start and the first record.
fn read(exchange: &mut Exchange, rng: &mut Random, book: &[u8], number: u64) -> Outcome<()> {
    let junk = rng.junk(CHECKPOINT);
    for call in [Call::Fresh, Call::Record] {
        let frame = Frame {
            call,
            argument: 0,
            book,
            checkpoint: &[],
            output: &junk,
        };
        exchange.hold(&frame, vec![Field::Number.is(number)])?;
    }
    Ok(())
}

/// The longest book with so many of these lines.
fn listing(units: u16, fuels: u16) -> Draft {
    let fuel = |number| FuelLine {
        number,
        kind: 1,
        class: 0,
        heat: MOST_HEAT,
        co2: 1,
        ch4: 0,
        n2o: 0,
        mvc: 0,
    };
    let mut draft = Draft {
        records: Vec::new(),
        units: (1..=units).map(|number| unit(number, true, 1)).collect(),
        fuels: (1..=fuels).map(|number| fuel(number).line()).collect(),
        year: YEAR,
        warming_set: FIRST_SET,
    };
    draft.records = hours(draft.room(LONGEST_BOOK));
    draft
}

fn starts(exchange: &mut Exchange, rng: &mut Random) -> Outcome<()> {
    let draft = hours_up_to(LONGEST_BOOK);
    let units = (LINE * draft.records.len()) as u32;
    let mut book = draft.bytes();
    for (starts, number) in STARTS {
        let mut trailer: Line = draft.trailer();
        for (place, start) in [8, 12].into_iter().zip(starts([units, END])) {
            put(&mut trailer, place, &start.to_le_bytes());
        }
        put(&mut book, END as usize, &trailer);
        read(exchange, rng, &book, number)?;
    }
    Ok(())
}
