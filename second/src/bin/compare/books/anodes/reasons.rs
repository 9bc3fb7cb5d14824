//! "First that applies": every combination of what can be wrong with an anode record,
//! on every sort of unit, repeated or not.

use super::super::repeats;
use super::{units, DRY, GRAM, PLAIN, WET};
use crate::draft::{put, Anodes, Line, LINE, MOST_IMPURITY, MOST_METAL, MOST_USE};
use crate::exchange::{Exchange, Outcome};
use crate::random::Random;
use crate::repeats::{Judged, COUNTED, OUT_OF_RANGE, REPEATED, UNIT_NOT_LISTED};

const FORM: u64 = 1;
const UNLISTED: u16 = 4;
const UNITS: [u16; 4] = [WET, DRY, PLAIN, UNLISTED];

type Fault = fn(&mut Line);

/// For reason 1.
const OF_FORM: [Fault; 4] = [
    |line| line[1] = 1,
    |line| line[4] = 1,
    |line| line[22] = 1,
    |line| line[LINE - 1] = 1,
];

/// For reason 4. The last alone makes the sum of the impurities too great.
const OF_RANGE: [Fault; 5] = [
    |line| put(line, 6, &13u16.to_le_bytes()),
    |line| put(line, 8, &(MOST_METAL + 1).to_le_bytes()),
    |line| put(line, 12, &(MOST_USE + 1).to_le_bytes()),
    |line| put(line, 16, &(MOST_IMPURITY + 1).to_le_bytes()),
    |line| put(line, 18, &[0xFF, 0x0F]),
];

/// Months that are none, each twice: 4 comes before 8.
const NO_MONTHS: [u16; 8] = [0, 13, 14, 255, 256, 257, 0x0700, u16::MAX];

pub fn run(exchange: &mut Exchange, rng: &mut Random) -> Outcome<()> {
    let sound = Anodes {
        impurities: [100, 200, 6_000],
        ..GRAM
    };
    for unit in UNITS {
        exchange.case(format!(
            "anodes of unit {unit}, every combination of faults, which reason comes first"
        ));
        let line = Anodes { unit, ..sound }.line();
        for of_form in 0..1 << OF_FORM.len() {
            for of_range in 0..1 << OF_RANGE.len() {
                let mut faulty = line;
                apply(&OF_FORM, of_form, &mut faulty);
                apply(&OF_RANGE, of_range, &mut faulty);
                let reason = first([of_form > 0, unit == UNLISTED, of_range > 0]);
                repeated_or_not(exchange, rng, (faulty, reason))?;
            }
        }
        no_months(exchange, rng, Anodes { unit, ..sound })?;
    }
    exchange.case("anodes, every flag, and every byte that must be 0");
    [1, 4, 5]
        .into_iter()
        .chain(22..LINE)
        .try_for_each(|place| must_be_0(exchange, rng, sound, place))
}

/// Those of the faults whose bit is set.
fn apply(faults: &[Fault], bits: u32, line: &mut Line) {
    for (place, fault) in faults.iter().enumerate() {
        if bits >> place & 1 == 1 {
            fault(line);
        }
    }
}

fn first(applies: [bool; 3]) -> u64 {
    let reasons = [FORM, UNIT_NOT_LISTED, OUT_OF_RANGE];
    let mut asked = applies.into_iter().zip(reasons);
    asked
        .find(|(applies, _)| *applies)
        .map_or(COUNTED, |(_, reason)| reason)
}

/// By itself, twice, and after anodes of the same unit and month with nothing else wrong.
fn repeated_or_not(
    exchange: &mut Exchange,
    rng: &mut Random,
    (line, reason): Judged,
) -> Outcome<()> {
    let unit = u16::from_le_bytes([line[2], line[3]]);
    let month = u16::from_le_bytes([line[6], line[7]]);
    let before = Anodes {
        unit,
        month,
        ..GRAM
    };
    let reason_before = first([false, unit == UNLISTED, month > 12]);
    let again = (line, if reason == COUNTED { REPEATED } else { reason });
    for records in [
        vec![(line, reason), again],
        vec![(before.line(), reason_before), again],
    ] {
        repeats::held(exchange, rng, &units(), &records)?;
    }
    Ok(())
}

fn no_months(exchange: &mut Exchange, rng: &mut Random, sound: Anodes) -> Outcome<()> {
    let reason = first([false, sound.unit == UNLISTED, true]);
    for month in NO_MONTHS {
        let anodes = Anodes { month, ..sound };
        let records = [(anodes.line(), reason); 3];
        repeats::held(exchange, rng, &units(), &records)?;
    }
    Ok(())
}

/// Each bit by itself, and some values of several.
fn must_be_0(
    exchange: &mut Exchange,
    rng: &mut Random,
    sound: Anodes,
    place: usize,
) -> Outcome<()> {
    let bits = (0..8).map(|bit| 1 << bit);
    for value in bits.chain([3, 4, 7, 0x55, 0xFF]) {
        let mut line = sound.line();
        line[place] = value;
        let after = (sound.line(), REPEATED);
        repeats::held(exchange, rng, &units(), &[(line, FORM), after])?;
    }
    Ok(())
}
