//! Each sort of record before each sort of hour, or of anode record, with the same unit
//! and number, and a sound one after both, on every sort of unit.

mod anodes;
mod hours;

use super::held;
use crate::draft::{dry_unit, unit, Line};
use crate::exchange::{Exchange, Outcome};
use crate::random::Random;
use crate::repeats::{Judged, Kind, COUNTED, KINDS, REPEATED};

const WET: u16 = 1;
const DRY: u16 = 2;
/// Without a monitor.
const PLAIN: u16 = 3;
const UNLISTED: u16 = 4;
const UNITS: [(u16, &str); 4] = [
    (WET, "a wet unit"),
    (DRY, "a dry unit"),
    (PLAIN, "a unit without a monitor"),
    (UNLISTED, "a unit that isn't listed"),
];

/// What an edit makes of a sound record.
#[derive(Clone, Copy)]
enum Fault {
    None,
    OtherKind,
    Form,
    Moisture,
    TooMuchMoisture,
    Range,
}

/// What is the matter with a record, and how it becomes so.
type Sort = (Fault, fn(&mut Line));

pub fn run(exchange: &mut Exchange, rng: &mut Random) -> Outcome<()> {
    let units = [
        unit(WET, true, 2_500),
        dry_unit(DRY, 2_500),
        unit(PLAIN, false, 2_500),
    ];
    for kind in KINDS {
        let sorts = sorts(kind);
        for (unit, name) in UNITS {
            let kind_name = kind.name();
            exchange.case(format!(
                "every sort of record before every sort of {kind_name}, {name}"
            ));
            for first in sorts {
                for second in sorts {
                    let records = judged(kind, unit, [first, second, &sorts[0]]);
                    held(exchange, rng, &units, &records)?;
                }
            }
        }
    }
    Ok(())
}

fn sorts(kind: Kind) -> &'static [Sort] {
    match kind {
        Kind::Hours => &hours::SORTS,
        Kind::Anodes => &anodes::SORTS,
    }
}

/// An hour's is no month, so that its bytes make no anodes in range.
fn number(kind: Kind) -> u16 {
    match kind {
        Kind::Hours => 4_000,
        Kind::Anodes => 7,
    }
}

/// A record is repeated if nothing is wrong with it by itself, and any before it is
/// of its kind.
fn judged(kind: Kind, unit: u16, sorts: [&Sort; 3]) -> Vec<Judged> {
    let mut stands = false;
    let judged = sorts.map(|(fault, edit)| {
        let mut line = kind.record((unit, number(kind)));
        edit(&mut line);
        let reason = match by_itself(kind, unit, *fault) {
            COUNTED if stands => REPEATED,
            reason => reason,
        };
        stands |= line[0] == kind.byte_0();
        (line, reason)
    });
    judged.to_vec()
}

/// An hour's bytes, and those of anodes, make no fuel record in good form.
fn by_itself(kind: Kind, unit: u16, fault: Fault) -> u64 {
    match (fault, unit) {
        (Fault::OtherKind | Fault::Form, _) => 1,
        (_, UNLISTED) => 2,
        (Fault::Moisture | Fault::TooMuchMoisture, WET | PLAIN) => 1,
        (Fault::TooMuchMoisture | Fault::Range, _) => 4,
        (_, PLAIN) if kind == Kind::Hours => 5,
        _ => COUNTED,
    }
}
