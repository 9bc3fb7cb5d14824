//! Books written line by line, from the requirements' table of lines alone.

mod analysed_gas;

pub use analysed_gas::*;

use std::collections::HashMap;

pub const LINE: usize = 32;
/// A full book is what `annual` can hold; other calls take longer ones.
pub const FULL_BOOK: usize = 65_536;
pub const LONGEST_BOOK: usize = 4_194_304;

/// Where the trailer names the set of warming values, and what it may say.
pub const SET_PLACE: usize = 20;
pub const FIRST_SET: u8 = 0;
pub const SECOND_SET: u8 = 1;
pub const SETS: [u8; 2] = [FIRST_SET, SECOND_SET];

pub fn other_set(set: u8) -> u8 {
    FIRST_SET + SECOND_SET - set
}

/// The class of fuel that may have a low heat value, and the greatest of these.
pub const NATURAL_GAS: u8 = 1;
pub const MOST_LOW_HEAT: u32 = 180_000;

/// Byte 0 of a fuel record, and the greatest amount and heat.
pub const FUEL_RECORD: u8 = 1;
pub const MOST_AMOUNT: u32 = 100_000_000;
pub const MOST_HEAT: u32 = 200_000;

/// Flag bits of a fuel record.
pub const HEAT_MEASURED: u8 = 1;
pub const CARBON_MEASURED: u8 = 2;
pub const HEAT_IS_LOW: u8 = 4;

/// Flag bits of a unit line.
pub const MONITORED: u8 = 1;
pub const DRY: u8 = 2;

/// Where an hour has its moisture, in tenths of a percent, and the greatest.
pub const MOISTURE_PLACE: usize = 16;
pub const MOST_MOISTURE: u16 = 1_000;

/// Byte 0 of an hour, and the greatest number.
pub const HOUR: u8 = 2;
pub const LAST_HOUR: u16 = 8_784;

/// Byte 0 of an anode record, where it has its three impurities, and the greatest
/// month, metal, use, and sum of impurities.
pub const ANODES: u8 = 4;
pub const IMPURITY_PLACES: [usize; 3] = [16, 18, 20];
pub const LAST_MONTH: u16 = 12;
pub const MOST_METAL: u32 = 100_000_000;
pub const MOST_USE: u32 = 1_000;
pub const MOST_IMPURITY: u16 = 10_000;

/// Where records of any kind have their unit and their month or number.
pub const UNIT_PLACE: usize = 2;
pub const NUMBER_PLACE: usize = 6;

pub type Line = [u8; LINE];

/// The parts of a book; `bytes` puts them together with the trailer.
#[derive(Clone)]
pub struct Draft {
    pub records: Vec<Line>,
    pub units: Vec<Line>,
    pub fuels: Vec<Line>,
    pub year: u16,
    pub warming_set: u8,
}

#[derive(Clone, Copy)]
pub struct FuelLine {
    pub number: u16,
    pub kind: u8,
    pub class: u8,
    pub heat: u32,
    pub co2: u32,
    pub ch4: u32,
    pub n2o: u32,
    pub mvc: u32,
}

#[derive(Clone, Copy)]
pub struct Burnt {
    pub unit: u16,
    pub fuel: u16,
    pub month: u16,
    pub amount: u32,
    pub heat: Option<u32>,
    pub heat_is_low: bool,
    pub carbon: Option<u32>,
}

#[derive(Clone, Copy)]
pub struct Anodes {
    pub unit: u16,
    pub month: u16,
    pub metal: u32,
    pub net_use: u32,
    /// Sulphur, ash and others.
    pub impurities: [u16; 3],
}

impl Draft {
    pub fn bytes(&self) -> Vec<u8> {
        let body = [&self.records[..], &self.units[..], &self.fuels[..]].concat();
        let mut bytes = body.concat();
        bytes.extend(self.trailer());
        bytes
    }

    /// The same book but for the set that it names.
    pub fn under(&self, warming_set: u8) -> Vec<u8> {
        let draft = Draft {
            warming_set,
            ..self.clone()
        };
        draft.bytes()
    }

    pub fn trailer(&self) -> Line {
        let unit_start = (LINE * self.records.len()) as u32;
        let fuel_start = unit_start + (LINE * self.units.len()) as u32;
        let mut line = [0; LINE];
        put(&mut line, 0, b"STCB");
        put(&mut line, 4, &1u16.to_le_bytes());
        put(&mut line, 8, &unit_start.to_le_bytes());
        put(&mut line, 12, &fuel_start.to_le_bytes());
        put(&mut line, 16, &self.year.to_le_bytes());
        line[SET_PLACE] = self.warming_set;
        line
    }

    /// How many records fill the book up to `length` bytes.
    pub fn room(&self, length: usize) -> usize {
        length / LINE - 1 - self.units.len() - self.fuels.len()
    }
}

pub fn unit(number: u16, monitored: bool, rating: u32) -> Line {
    let mut line = [0; LINE];
    put(&mut line, 0, &number.to_le_bytes());
    line[2] = if monitored { MONITORED } else { 0 };
    put(&mut line, 4, &rating.to_le_bytes());
    line
}

/// A unit whose monitor measures dry gas.
pub fn dry_unit(number: u16, rating: u32) -> Line {
    let mut line = unit(number, true, rating);
    line[2] |= DRY;
    line
}

impl FuelLine {
    pub fn line(&self) -> Line {
        let mut line = [0; LINE];
        put(&mut line, 0, &self.number.to_le_bytes());
        line[2] = self.kind;
        line[3] = self.class;
        put(&mut line, 4, &self.heat.to_le_bytes());
        put(&mut line, 8, &self.co2.to_le_bytes());
        put(&mut line, 12, &self.ch4.to_le_bytes());
        put(&mut line, 16, &self.n2o.to_le_bytes());
        put(&mut line, MVC_PLACE, &self.mvc.to_le_bytes());
        line
    }
}

impl Burnt {
    pub fn line(&self) -> Line {
        let mut line = [0; LINE];
        line[0] = FUEL_RECORD;
        line[1] = self.flags();
        put(&mut line, 2, &self.unit.to_le_bytes());
        put(&mut line, 4, &self.fuel.to_le_bytes());
        put(&mut line, 6, &self.month.to_le_bytes());
        put(&mut line, 8, &self.amount.to_le_bytes());
        put(&mut line, 12, &self.heat.unwrap_or(0).to_le_bytes());
        put(&mut line, 16, &self.carbon.unwrap_or(0).to_le_bytes());
        line
    }

    fn flags(&self) -> u8 {
        let flags = [
            (HEAT_MEASURED, self.heat.is_some()),
            (CARBON_MEASURED, self.carbon.is_some()),
            (HEAT_IS_LOW, self.heat_is_low),
        ];
        let set = flags.iter().filter(|(_, is_set)| *is_set);
        set.map(|(flag, _)| flag).sum()
    }
}

pub fn hour(unit: u16, hour: u16, percent: u32, flow: u32) -> Line {
    let mut line = [0; LINE];
    line[0] = HOUR;
    put(&mut line, 2, &unit.to_le_bytes());
    put(&mut line, NUMBER_PLACE, &hour.to_le_bytes());
    put(&mut line, 8, &percent.to_le_bytes());
    put(&mut line, 12, &flow.to_le_bytes());
    line
}

/// The hour with so many tenths of a percent of moisture.
pub fn with_moisture(hour: Line, moisture: u16) -> Line {
    let mut line = hour;
    put(&mut line, MOISTURE_PLACE, &moisture.to_le_bytes());
    line
}

impl Anodes {
    pub fn line(&self) -> Line {
        let mut line = [0; LINE];
        line[0] = ANODES;
        put(&mut line, UNIT_PLACE, &self.unit.to_le_bytes());
        put(&mut line, NUMBER_PLACE, &self.month.to_le_bytes());
        put(&mut line, 8, &self.metal.to_le_bytes());
        put(&mut line, 12, &self.net_use.to_le_bytes());
        for (place, impurity) in IMPURITY_PLACES.into_iter().zip(self.impurities) {
            put(&mut line, place, &impurity.to_le_bytes());
        }
        line
    }
}

/// The records with new numbers for the hours of each unit, from the last down,
/// so that none repeats another. A number out of range is there to be seen, and
/// stays.
pub fn numbered_apart(mut records: Vec<Line>) -> Vec<Line> {
    let mut next_numbers = HashMap::new();
    for record in records.iter_mut().filter(|record| record[0] == HOUR) {
        let number = u16::from_le_bytes([record[NUMBER_PLACE], record[NUMBER_PLACE + 1]]);
        if (1..=LAST_HOUR).contains(&number) {
            let unit = [record[2], record[3]];
            let next = next_numbers.entry(unit).or_insert(LAST_HOUR);
            put(record, NUMBER_PLACE, &next.to_le_bytes());
            *next -= 1;
        }
    }
    records
}

pub fn put(bytes: &mut [u8], place: usize, value: &[u8]) {
    bytes[place..place + value.len()].copy_from_slice(value);
}
