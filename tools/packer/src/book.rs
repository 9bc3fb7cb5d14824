//! What a book says, and the rules that make it sound: docs/RULES.md, "The book".
//!
//! Text and bytes both go through `Book::new` and the `add_` functions, so the rules stand once and
//! every `Book` is sound. Records have no rules here: judging them is the library's work.

use std::ops::RangeInclusive;

use crate::fuel::Fuel;
use crate::record::Record;

pub const LINE: usize = 32;
pub const LENGTHS: RangeInclusive<usize> = LINE..=4_194_304;

const MOST_UNITS: usize = 64;
const MOST_FUELS: usize = 64;
const YEARS: RangeInclusive<u16> = 2000..=2099;
const RATINGS: RangeInclusive<u32> = 1..=100_000;

pub struct Book {
    year: u16,
    warming: Warming,
    units: Vec<Unit>,
    fuels: Vec<Fuel>,
    records: Vec<Record>,
}

/// The set of values by which CH4 and N2O count in a report's CO2 equivalent.
#[derive(Clone, Copy)]
pub enum Warming {
    /// 21 for CH4, 310 for N2O.
    First = 0,
    /// 25 for CH4, 298 for N2O.
    Second = 1,
}

pub struct Unit {
    pub number: u16,
    /// In tenths of MMBtu/h.
    pub rating: u32,
    pub monitor: Option<Monitor>,
}

/// A stack monitor, by the gas that its analyser measures. Dried gas shows a higher percent of CO2
/// than the stack gas has, so an hour of a dry unit counts less, by its moisture.
#[derive(Clone, Copy)]
pub enum Monitor {
    Wet,
    Dry,
}

impl Warming {
    pub const ALL: [Warming; 2] = [Warming::First, Warming::Second];

    pub fn word(self) -> &'static str {
        match self {
            Warming::First => "first",
            Warming::Second => "second",
        }
    }
}

impl Book {
    pub fn new(year: u16, warming: Warming) -> Result<Book, String> {
        if !YEARS.contains(&year) {
            let (first, last) = YEARS.into_inner();
            return Err(format!("year {year} isn't from {first} to {last}"));
        }
        Ok(Book {
            year,
            warming,
            units: Vec::new(),
            fuels: Vec::new(),
            records: Vec::new(),
        })
    }

    pub fn year(&self) -> u16 {
        self.year
    }

    pub fn warming(&self) -> Warming {
        self.warming
    }

    pub fn units(&self) -> &[Unit] {
        &self.units
    }

    pub fn fuels(&self) -> &[Fuel] {
        &self.fuels
    }

    pub fn records(&self) -> &[Record] {
        &self.records
    }

    pub fn unit(&self, number: u16) -> Option<&Unit> {
        self.units.iter().find(|unit| unit.number == number)
    }

    pub fn fuel(&self, number: u16) -> Option<&Fuel> {
        self.fuels.iter().find(|fuel| fuel.number == number)
    }

    pub fn add_unit(&mut self, unit: Unit) -> Result<(), String> {
        check_number("unit", unit.number, self.units.last().map(|u| u.number))?;
        check_count("unit", self.units.len(), MOST_UNITS)?;
        unit.check()?;
        self.check_room()?;
        self.units.push(unit);
        Ok(())
    }

    pub fn add_fuel(&mut self, fuel: Fuel) -> Result<(), String> {
        check_number("fuel", fuel.number, self.fuels.last().map(|f| f.number))?;
        check_count("fuel", self.fuels.len(), MOST_FUELS)?;
        fuel.check()?;
        self.check_room()?;
        self.fuels.push(fuel);
        Ok(())
    }

    pub fn add_record(&mut self, record: Record) -> Result<(), String> {
        self.check_room()?;
        self.records.push(record);
        Ok(())
    }

    fn check_room(&self) -> Result<(), String> {
        let lines_with_trailer = self.records.len() + self.units.len() + self.fuels.len() + 1;
        let longest = LENGTHS.into_inner().1;
        if (lines_with_trailer + 1) * LINE > longest {
            let most = longest / LINE - 1;
            return Err(format!(
                "the book is full: its {longest} bytes hold {most} units, fuels and records"
            ));
        }
        Ok(())
    }
}

impl Unit {
    fn check(&self) -> Result<(), String> {
        if RATINGS.contains(&self.rating) {
            return Ok(());
        }
        let (lowest, highest) = RATINGS.into_inner();
        Err(format!(
            "unit {} has rating {}; a rating is from {} to {} MMBtu/h",
            self.number,
            in_tenths(self.rating),
            in_tenths(lowest),
            in_tenths(highest)
        ))
    }
}

fn check_number(what: &str, number: u16, before: Option<u16>) -> Result<(), String> {
    match before {
        _ if number == 0 => Err(format!("{what} 0 can't be; {what} numbers start at 1")),
        Some(before) if number <= before => Err(format!(
            "{what} {number} comes after {what} {before}; {what} numbers rise"
        )),
        _ => Ok(()),
    }
}

fn check_count(what: &str, count: usize, most: usize) -> Result<(), String> {
    if count < most {
        return Ok(());
    }
    Err(format!("a book has at most {most} {what} lines"))
}

/// Spells a rating or a moisture, which are kept in tenths, with its one decimal.
pub fn in_tenths(tenths: u32) -> String {
    format!("{}.{}", tenths / 10, tenths % 10)
}

/// Spells an impurity of anodes, which is kept in hundredths, with its two decimals.
pub fn in_hundredths(hundredths: u32) -> String {
    format!("{}.{:02}", hundredths / 100, hundredths % 100)
}
