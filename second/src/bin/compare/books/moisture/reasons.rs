//! "First that applies": every combination of what can be wrong with an hour, on
//! every sort of unit and with moisture of every sort.

use super::{held, set_aside, DRY, PLAIN, UNLISTED, WET};
use crate::draft::{hour, put, with_moisture, Line, LINE, MOST_MOISTURE};
use crate::exchange::{Exchange, Outcome};
use crate::expectation::{Expectation, Field};
use crate::random::Random;
use crate::specials::{FLOW_LIMIT, PERCENT_LIMIT};

const UNITS: [u16; 4] = [UNLISTED, WET, DRY, PLAIN];
const MOISTURES: [u16; 6] = [0, 1, 256, MOST_MOISTURE, MOST_MOISTURE + 1, u16::MAX];

type Fault = fn(&mut Line);

/// Whatever the unit, for reason 1.
const OF_FORM: [Fault; 4] = [
    |line| line[1] = 1,
    |line| line[4] = 1,
    |line| line[5] = 1,
    |line| line[18] = 1,
];

/// For reason 4.
const OF_RANGE: [Fault; 3] = [
    |line| put(line, 6, &8_785u16.to_le_bytes()),
    |line| put(line, 8, &(PERCENT_LIMIT + 1).to_le_bytes()),
    |line| put(line, 12, &(FLOW_LIMIT + 1).to_le_bytes()),
];

pub fn run(exchange: &mut Exchange, rng: &mut Random) -> Outcome<()> {
    exchange.case("moisture and every other fault of an hour, which reason comes first");
    held(exchange, rng, &combinations())?;
    exchange.case("the bytes after the moisture");
    held(exchange, rng, &bytes_after())
}

fn each_hour() -> impl Iterator<Item = (u16, u16, Line)> {
    UNITS.into_iter().flat_map(|unit| {
        MOISTURES.map(|moisture| {
            let sound = hour(unit, 8_784, PERCENT_LIMIT, FLOW_LIMIT);
            (unit, moisture, with_moisture(sound, moisture))
        })
    })
}

fn combinations() -> Vec<(Line, Vec<Expectation>)> {
    let mut hours = Vec::new();
    for (unit, moisture, sound) in each_hour() {
        for of_form in 0..1 << OF_FORM.len() {
            for of_range in 0..1 << OF_RANGE.len() {
                let mut line = sound;
                apply(&OF_FORM, of_form, &mut line);
                apply(&OF_RANGE, of_range, &mut line);
                let reason = first(unit, moisture, of_form > 0, of_range > 0);
                hours.push((line, set_aside_or_counted(reason)));
            }
        }
    }
    hours
}

/// Those of the faults whose bit is set.
fn apply(faults: &[Fault], bits: u32, line: &mut Line) {
    for (place, fault) in faults.iter().enumerate() {
        if bits >> place & 1 == 1 {
            fault(line);
        }
    }
}

/// The reasons in the order in which they are asked for.
fn first(unit: u16, moisture: u16, of_form: bool, of_range: bool) -> Option<u64> {
    let asked = [
        (of_form, 1),
        (unit == UNLISTED, 2),
        (unit != DRY && moisture > 0, 1),
        (of_range || moisture > MOST_MOISTURE, 4),
        (unit == PLAIN, 5),
    ];
    let found = asked.iter().find(|(applies, _)| *applies);
    found.map(|(_, reason)| *reason)
}

fn set_aside_or_counted(reason: Option<u64>) -> Vec<Expectation> {
    match reason {
        Some(reason) => set_aside(reason),
        None => vec![Field::Number.is(0), Field::Reason.is(0)],
    }
}

/// Reason 1 before all else, whether or not there is moisture before them.
fn bytes_after() -> Vec<(Line, Vec<Expectation>)> {
    let mut hours = Vec::new();
    for (_, _, sound) in each_hour() {
        for place in 18..LINE {
            for value in [1, 0x80, 0xFF] {
                let mut line = sound;
                line[place] = value;
                hours.push((line, set_aside(1)));
            }
        }
    }
    hours
}
