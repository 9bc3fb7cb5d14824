//! "First that applies": every combination of what can be wrong with analysed gas, on every
//! sort of unit and of every sort of fuel.

use super::{held, Case, DRY, FUEL, GAS, LARGE, SMALL, UNLISTED, WET};
use crate::draft::{
    put, FuelLine, Line, ANALYSED_GAS, CARBON_MEASURED, CARBON_PLACE, HEAT_IS_LOW, HEAT_MEASURED,
    LINE, MOST_AMOUNT, MOST_CARBON, MOST_HEAT, MOST_WEIGHT, NUMBER_PLACE, UNIT_PLACE, WEIGHT_PLACE,
};
use crate::exchange::{Exchange, Outcome};
use crate::random::Random;
use crate::repeats::of_reason;

const UNITS: [u16; 5] = [SMALL, LARGE, WET, DRY, UNLISTED];

/// What is the matter with a fuel.
#[derive(Clone, Copy, PartialEq, Eq)]
enum Trouble {
    None,
    NoHeat,
    NoCarbonByMass,
    NotListed,
}

/// Kind, class, default heat and molar volume, and what an analysis of it is refused for.
/// The last isn't in the book.
const FUELS: [(u8, u8, u32, u32, Trouble); 9] = [
    (3, 1, 38_000, 24_000, Trouble::None),
    (3, 0, 38_000, 20_000, Trouble::None),
    (3, 1, 0, 27_000, Trouble::NoHeat),
    (3, 1, 38_000, 0, Trouble::NoCarbonByMass),
    (3, 0, 0, 0, Trouble::NoCarbonByMass),
    (2, 2, 38_000, 24_000, Trouble::NoCarbonByMass),
    (1, 3, 38_000, 24_000, Trouble::NoCarbonByMass),
    (1, 0, 0, 24_000, Trouble::NoCarbonByMass),
    (3, 1, 38_000, 24_000, Trouble::NotListed),
];

type Fault = fn(&mut Line);

/// For reason 1.
const OF_FORM: [Fault; 5] = [
    |line| line[1] |= CARBON_MEASURED,
    |line| line[1] = HEAT_IS_LOW | line[1] & !HEAT_MEASURED,
    |line| line[1] |= 0x80,
    |line| line[WEIGHT_PLACE + 4] = 1,
    |line| line[LINE - 1] = 1,
];

/// For reason 4.
const OF_RANGE: [Fault; 5] = [
    |line| put(line, NUMBER_PLACE, &13u16.to_le_bytes()),
    |line| put(line, 8, &(MOST_AMOUNT + 1).to_le_bytes()),
    |line| {
        line[1] |= HEAT_MEASURED;
        put(line, 12, &(MOST_HEAT + 1).to_le_bytes());
    },
    |line| put(line, CARBON_PLACE, &(MOST_CARBON + 1).to_le_bytes()),
    |line| put(line, WEIGHT_PLACE, &(MOST_WEIGHT + 1).to_le_bytes()),
];

/// Months that are none.
const NO_MONTHS: [u16; 8] = [0, 13, 14, 255, 256, 257, 0x0700, u16::MAX];

pub fn run(exchange: &mut Exchange, rng: &mut Random) -> Outcome<()> {
    exchange.case("analysed gas, every combination of faults, which reason comes first");
    held(exchange, rng, &listed(), &combinations())?;
    exchange.case("analysed gas, months that are none, and every byte that must be 0");
    held(exchange, rng, &listed(), &no_months())?;
    held(exchange, rng, &listed(), &must_be_0())?;
    exchange.case("the bytes of analysed gas as every other kind of record");
    held(exchange, rng, &listed(), &other_kinds())
}

fn listed() -> Vec<FuelLine> {
    let line = |(number, (kind, class, heat, mvc, _))| FuelLine {
        number,
        kind,
        class,
        heat,
        mvc,
        ..FUEL
    };
    let mut fuels: Vec<FuelLine> = (1..).zip(FUELS).map(line).collect();
    fuels.pop();
    fuels
}

fn each_sort() -> impl Iterator<Item = (u16, Trouble, Line)> {
    UNITS.into_iter().flat_map(|unit| {
        (1u16..).zip(FUELS).map(move |(fuel, (.., trouble))| {
            let mut line = GAS.line();
            put(&mut line, UNIT_PLACE, &unit.to_le_bytes());
            put(&mut line, 4, &fuel.to_le_bytes());
            (unit, trouble, line)
        })
    })
}

/// One fault of form, all of them or none.
fn combinations() -> Vec<Case> {
    let all = (1 << OF_FORM.len()) - 1;
    let mut cases = Vec::new();
    for (unit, trouble, sound) in each_sort() {
        for of_form in [0, 1, 2, 4, 8, 16, all] {
            for of_range in 0..1 << OF_RANGE.len() {
                let mut line = sound;
                apply(&OF_RANGE, of_range, &mut line);
                apply(&OF_FORM, of_form, &mut line);
                let reason = first(of_form > 0, unit, trouble, of_range > 0);
                cases.push((line, of_reason(reason)));
            }
        }
    }
    cases
}

/// Those of the faults whose bit is set.
fn apply(faults: &[Fault], bits: u32, line: &mut Line) {
    for (place, fault) in faults.iter().enumerate() {
        if bits >> place & 1 == 1 {
            fault(line);
        }
    }
}

/// 0 if none applies. There is a method for every such record, so none has reason 6.
fn first(of_form: bool, unit: u16, trouble: Trouble, of_range: bool) -> u64 {
    let asked = [
        (of_form, 1),
        (unit == UNLISTED, 2),
        (trouble == Trouble::NotListed, 3),
        (of_range || trouble == Trouble::NoCarbonByMass, 4),
        (trouble == Trouble::NoHeat, 7),
    ];
    let found = asked.iter().find(|(applies, _)| *applies);
    found.map_or(0, |(_, reason)| *reason)
}

fn no_months() -> Vec<Case> {
    let mut cases = Vec::new();
    for (unit, trouble, sound) in each_sort() {
        for month in NO_MONTHS {
            let mut line = sound;
            put(&mut line, NUMBER_PLACE, &month.to_le_bytes());
            cases.push((line, of_reason(first(false, unit, trouble, true))));
        }
    }
    cases
}

/// Each bit by itself, and some values of several.
fn must_be_0() -> Vec<Case> {
    let mut cases = Vec::new();
    for place in (12..16).chain(WEIGHT_PLACE + 4..LINE) {
        let bits = (0..8).map(|bit| 1 << bit);
        for value in bits.chain([3, 0x55, 0xFF]) {
            let mut line = GAS.line();
            line[place] = value;
            cases.push((line, of_reason(1)));
        }
    }
    cases
}

/// Its fuel stands where hours and anodes have none, its weight where fuel has none.
fn other_kinds() -> Vec<Case> {
    let kinds = (0..=u8::MAX).filter(|&kind| kind != ANALYSED_GAS);
    let case = |kind| {
        let mut line = GAS.line();
        line[0] = kind;
        (line, of_reason(1))
    };
    kinds.map(case).collect()
}
