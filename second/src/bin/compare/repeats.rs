//! Books of hours and of anode records, each record with the reason that it must have.

use crate::draft::{
    dry_unit, hour, unit, Anodes, Draft, Line, ANODES, FIRST_SET, HOUR, LAST_HOUR, LAST_MONTH,
};
use crate::expectation::{self, Expectation, Field};

/// P7 of the requirements, 12.5 percent and 2,000,000 scf/h.
pub const READINGS: [u32; 2] = [0x4148_0000, 0x49F4_2400];

pub const COUNTED: u64 = 0;
pub const UNIT_NOT_LISTED: u64 = 2;
pub const OUT_OF_RANGE: u64 = 4;
pub const REPEATED: u64 = 8;

/// A record and its reason, 0 if it counts.
pub type Judged = (Line, u64);

/// Unit, and number of an hour or month.
pub type Key = (u16, u16);

/// Records of which a unit has each number once.
#[derive(Clone, Copy, Debug, PartialEq, Eq)]
pub enum Kind {
    Hours,
    Anodes,
}

pub const KINDS: [Kind; 2] = [Kind::Hours, Kind::Anodes];

impl Kind {
    pub fn name(self) -> &'static str {
        match self {
            Kind::Hours => "hours",
            Kind::Anodes => "anodes",
        }
    }

    pub fn byte_0(self) -> u8 {
        match self {
            Kind::Hours => HOUR,
            Kind::Anodes => ANODES,
        }
    }

    pub fn last_number(self) -> u16 {
        match self {
            Kind::Hours => LAST_HOUR,
            Kind::Anodes => LAST_MONTH,
        }
    }

    /// A record that counts on a unit with a monitor: P7, or 2,500 kg of metal by
    /// 1,250 kg of anodes, of which a fifth isn't carbon.
    pub fn record(self, (unit, number): Key) -> Line {
        let [percent, flow] = READINGS;
        let anodes = Anodes {
            unit,
            month: number,
            metal: 2_500,
            net_use: 500,
            impurities: [300, 700, 1_000],
        };
        match self {
            Kind::Hours => hour(unit, number, percent, flow),
            Kind::Anodes => anodes.line(),
        }
    }

    /// The CO2 of such a record; of anodes 3.664 times 1,000 kg of carbon.
    pub fn kilograms(self) -> u64 {
        match self {
            Kind::Hours => 12_950,
            Kind::Anodes => 3_664,
        }
    }
}

/// Records of units that are monitored and listed, all but unit 0: each is held
/// against every one before it.
pub fn judged(kind: Kind, keys: &[Key]) -> Vec<Judged> {
    let reason = |place: usize| match keys[place] {
        (0, _) => UNIT_NOT_LISTED,
        (_, 0) => OUT_OF_RANGE,
        (_, number) if number > kind.last_number() => OUT_OF_RANGE,
        key if keys[..place].contains(&key) => REPEATED,
        _ => COUNTED,
    };
    let places = 0..keys.len();
    places
        .map(|place| (kind.record(keys[place]), reason(place)))
        .collect()
}

/// The lines of these units, which rise, by turns with a wet and a dry monitor.
pub fn monitored(numbers: impl IntoIterator<Item = u16>) -> Vec<Line> {
    let mut is_dry = true;
    let mut line = |number| {
        is_dry = !is_dry;
        match is_dry {
            true => dry_unit(number, 2_500),
            false => unit(number, true, 2_500),
        }
    };
    numbers.into_iter().map(&mut line).collect()
}

/// The lines of all units that these records name.
pub fn units_of(keys: &[Key]) -> Vec<Line> {
    let mut numbers: Vec<u16> = keys.iter().map(|(unit, _)| *unit).collect();
    numbers.sort_unstable();
    numbers.dedup();
    monitored(numbers.into_iter().filter(|&number| number > 0))
}

pub fn book(units: &[Line], records: &[Judged]) -> Vec<u8> {
    let draft = Draft {
        records: records.iter().map(|(line, _)| *line).collect(),
        units: units.to_vec(),
        fuels: Vec::new(),
        year: 2016,
        warming_set: FIRST_SET,
    };
    draft.bytes()
}

pub fn of_reason(reason: u64) -> Vec<Expectation> {
    vec![Field::Number.is(0), Field::Reason.is(reason)]
}

/// The report after these records.
pub fn told(records: &[Judged]) -> Vec<Expectation> {
    let first = (0..).zip(records).find(|(_, (_, reason))| *reason > 0);
    match first {
        Some((index, (_, reason))) => expectation::withheld(index, *reason),
        None => vec![Field::Number.is(0)],
    }
}
