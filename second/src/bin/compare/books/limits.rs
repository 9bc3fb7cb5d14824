//! Every field of every line at its limits and one past each.

use crate::draft::{put, Draft, Line, FULL_BOOK, LINE, LONGEST_BOOK};
use crate::exchange::{Exchange, Outcome};
use crate::job;
use crate::random::Random;
use crate::sample::{
    small_book, small_book_with_analysed_gas, small_book_with_anodes, small_book_with_low_heat,
};
use crate::specials::{FLOW_LIMIT, PERCENT_LIMIT};

/// A field: where it lies, how many bytes it has, and the ends of its range.
struct Field {
    place: usize,
    width: usize,
    ends: &'static [u32],
}

const fn field(place: usize, width: usize, ends: &'static [u32]) -> Field {
    Field { place, width, ends }
}

const fn start(line: usize) -> u32 {
    (LINE * line) as u32
}

/// Starts about those of the sample: five records, three units, three fuels.
const TRAILER: [Field; 7] = [
    field(0, 4, &[0x4243_5453]),
    field(4, 2, &[1]),
    field(6, 2, &[0]),
    field(
        8,
        4,
        &[
            start(5),
            start(6),
            start(8),
            start(11),
            FULL_BOOK as u32,
            LONGEST_BOOK as u32,
        ],
    ),
    field(12, 4, &[start(4), start(5), start(8), start(11), start(12)]),
    field(16, 2, &[2000, 2099]),
    field(20, 1, &[0, 1]),
];

const UNIT: [Field; 4] = [
    field(0, 2, &[0, 1, 2, 3, 4, 65_535]),
    field(2, 1, &[0, 1, 3, 255]),
    field(3, 1, &[0]),
    field(4, 4, &[1, 2_500, 100_000, u32::MAX]),
];

const FUEL: [Field; 9] = [
    field(0, 2, &[0, 1, 2, 3, 65_535]),
    field(2, 1, &[1, 2, 3, 255]),
    field(3, 1, &[0, 1, 2, 3, 255]),
    field(4, 4, &[0, 200_000, u32::MAX]),
    field(8, 4, &[1, 200_000, u32::MAX]),
    field(12, 4, &[0, 200_000, u32::MAX]),
    field(16, 4, &[0, 200_000, u32::MAX]),
    field(20, 4, &[0, 20_000, 27_000, u32::MAX]),
    field(24, 4, &[0]),
];

const FUEL_RECORD: [Field; 8] = [
    field(0, 1, &[1, 2, 255]),
    field(1, 1, &[0, 1, 2, 3, 5, 7, 255]),
    field(2, 2, &[0, 1, 2, 3, 65_535]),
    field(4, 2, &[0, 1, 2, 3, 65_535]),
    field(6, 2, &[1, 12, 65_535]),
    field(8, 4, &[0, 100_000_000, u32::MAX]),
    field(12, 4, &[0, 1, 180_000, 200_000, u32::MAX]),
    field(16, 4, &[0, 1_000_000, 4_000_000, u32::MAX]),
];

const HOUR: [Field; 10] = [
    field(0, 1, &[2]),
    field(1, 1, &[0]),
    field(2, 2, &[0, 1, 2, 3, 4]),
    field(4, 2, &[0]),
    field(6, 2, &[1, 8_784, 65_535]),
    field(8, 4, &[0, PERCENT_LIMIT]),
    field(12, 4, &[0, FLOW_LIMIT]),
    field(16, 2, &[0, 1_000, 65_535]),
    field(18, 2, &[0]),
    field(28, 4, &[0]),
];

const ANODES: [Field; 11] = [
    field(0, 1, &[2, 4]),
    field(1, 1, &[0]),
    field(2, 2, &[0, 1, 2, 3, 4, 65_535]),
    field(4, 2, &[0]),
    field(6, 2, &[1, 7, 12, 256, 65_535]),
    field(8, 4, &[0, 100_000_000, u32::MAX]),
    field(12, 4, &[0, 1_000, 65_536, u32::MAX]),
    field(16, 2, &[0, 10_000, 65_535]),
    field(18, 2, &[0, 10_000, 65_535]),
    field(20, 2, &[0, 10_000, 65_535]),
    field(22, 4, &[0]),
];

const ANALYSED_GAS: [Field; 11] = [
    field(0, 1, &[1, 3]),
    field(1, 1, &[0, 1, 5, 255]),
    field(2, 2, &[0, 1, 2, 3, 65_535]),
    field(4, 2, &[0, 1, 2, 3, 65_535]),
    field(6, 2, &[1, 12, 256, 65_535]),
    field(8, 4, &[0, 100_000_000, u32::MAX]),
    field(12, 4, &[0, 180_000, 200_000, u32::MAX]),
    field(16, 4, &[0, 1_000_000, 4_000_000, u32::MAX]),
    field(20, 4, &[0, 200_000, u32::MAX]),
    field(24, 4, &[0]),
    field(28, 4, &[0]),
];

impl Field {
    /// The ends themselves and their neighbours on either side.
    fn values(&self) -> impl Iterator<Item = u32> {
        let neighbours = |&end: &u32| [end.wrapping_sub(1), end, end.wrapping_add(1)];
        self.ends.iter().flat_map(neighbours)
    }

    fn set(&self, bytes: &mut [u8], value: u32) {
        put(bytes, self.place, &value.to_le_bytes()[..self.width]);
    }
}

pub fn run(exchange: &mut Exchange, rng: &mut Random) -> Outcome<()> {
    let base = small_book();
    let units = base.records.len();
    let fuels = units + base.units.len();
    let trailer = fuels + base.fuels.len();
    let places: [(&str, &[Field], std::ops::Range<usize>); 5] = [
        ("limits in fuel records", &FUEL_RECORD, 0..3),
        ("limits in monitor hours", &HOUR, 3..units),
        ("limits in unit lines", &UNIT, units..fuels),
        ("limits in fuel lines", &FUEL, fuels..trailer),
        ("limits in the trailer", &TRAILER, trailer..trailer + 1),
    ];
    for (name, fields, lines) in places {
        exchange.case(name);
        for line in lines {
            vary(exchange, rng, &base, fields, line)?;
        }
    }
    exchange.case("every pair of limits in one fuel record");
    pairs(exchange, &base, &FUEL_RECORD, 0)?;
    exchange.case("every pair of limits in an hour of a wet unit");
    pairs(exchange, &base, &HOUR, 3)?;
    exchange.case("every pair of limits in an hour of a dry unit");
    pairs(exchange, &base, &HOUR, 4)?;
    let with_low_heat = small_book_with_low_heat();
    exchange.case("limits in a fuel record with a low heat value");
    vary(exchange, rng, &with_low_heat, &FUEL_RECORD, 0)?;
    exchange.case("every pair of limits in a fuel record with a low heat value");
    pairs(exchange, &with_low_heat, &FUEL_RECORD, 0)?;
    let with_anodes = small_book_with_anodes();
    exchange.case("limits in anode records");
    for line in 0..4 {
        vary(exchange, rng, &with_anodes, &ANODES, line)?;
    }
    exchange.case("every pair of limits in an anode record");
    pairs(exchange, &with_anodes, &ANODES, 0)?;
    analysed_gas(exchange, rng)
}

fn analysed_gas(exchange: &mut Exchange, rng: &mut Random) -> Outcome<()> {
    let base = small_book_with_analysed_gas();
    exchange.case("limits in records of analysed gas");
    for line in 0..3 {
        vary(exchange, rng, &base, &ANALYSED_GAS, line)?;
    }
    exchange.case("limits in fuel lines with a molar volume");
    let first_fuel = base.records.len() + base.units.len();
    for line in first_fuel..first_fuel + base.fuels.len() {
        vary(exchange, rng, &base, &FUEL, line)?;
    }
    exchange.case("every pair of limits in a record of analysed gas");
    pairs(exchange, &base, &ANALYSED_GAS, 0)
}

fn vary(
    exchange: &mut Exchange,
    rng: &mut Random,
    base: &Draft,
    fields: &[Field],
    line: usize,
) -> Outcome<()> {
    for field in fields {
        for value in field.values() {
            let mut book = base.bytes();
            field.set(&mut book[LINE * line..LINE * (line + 1)], value);
            job::everything(exchange, rng, &book, base.records.len())?;
        }
    }
    Ok(())
}

/// Two fields of a record wrong at once show which reason comes first. Each record
/// has a book of its own, for an hour would repeat the one before it.
fn pairs(exchange: &mut Exchange, base: &Draft, fields: &[Field], record: usize) -> Outcome<()> {
    for (first, one) in fields.iter().enumerate() {
        for other in &fields[first + 1..] {
            for record in pair_records(base.records[record], one, other) {
                let draft = Draft {
                    records: vec![record],
                    ..base.clone()
                };
                job::records(exchange, &draft.bytes(), 1)?;
            }
        }
    }
    Ok(())
}

fn pair_records(line: Line, one: &Field, other: &Field) -> Vec<Line> {
    let mut records = Vec::new();
    for value in one.values() {
        for other_value in other.values() {
            let mut record = line;
            one.set(&mut record, value);
            other.set(&mut record, other_value);
            records.push(record);
        }
    }
    records
}
