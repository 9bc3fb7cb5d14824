//! A book: its trailer, and the lines that the trailer points back to.

use crate::bytes::{all_zero, u16_at, u32_at};
use crate::lines::{self, Fuel, Unit};
use crate::refusal::Refusal;
use crate::warming::Warming;
use crate::LINE;

pub const LONGEST: usize = 4_194_304;

/// A book that none of the numbers 20 to 23 refuses.
#[derive(Debug)]
pub struct Book<'a> {
    records: &'a [u8],
    units: Vec<Unit>,
    fuels: Vec<Fuel>,
    pub length: u32,
    pub year: u16,
    pub warming: Warming,
}

impl<'a> Book<'a> {
    /// "The smallest number that applies to a call wins."
    pub fn read(bytes: &'a [u8]) -> Result<Book<'a>, Refusal> {
        let length = bytes.len();
        if !(LINE..=LONGEST).contains(&length) || !length.is_multiple_of(LINE) {
            return Err(Refusal::BookLength);
        }
        let trailer = Trailer::read(bytes).ok_or(Refusal::Trailer)?;
        let unit_lines = &bytes[trailer.unit_start..trailer.fuel_start];
        let fuel_lines = &bytes[trailer.fuel_start..length - LINE];
        Ok(Book {
            records: &bytes[..trailer.unit_start],
            units: lines::units(unit_lines).ok_or(Refusal::UnitLines)?,
            fuels: lines::fuels(fuel_lines).ok_or(Refusal::FuelLines)?,
            length: length as u32,
            year: trailer.year,
            warming: trailer.warming,
        })
    }

    /// n of the requirements.
    pub fn record_count(&self) -> u32 {
        (self.records.len() / LINE) as u32
    }

    /// The lines of all records.
    pub fn records(&self) -> impl Iterator<Item = &'a [u8]> {
        self.records.chunks(LINE)
    }

    pub fn unit(&self, number: u16) -> Option<&Unit> {
        self.units.iter().find(|unit| unit.number == number)
    }

    pub fn fuel(&self, number: u16) -> Option<&Fuel> {
        self.fuels.iter().find(|fuel| fuel.number == number)
    }
}

struct Trailer {
    unit_start: usize,
    fuel_start: usize,
    year: u16,
    warming: Warming,
}

impl Trailer {
    /// The trailer of a book whose length is right.
    fn read(book: &[u8]) -> Option<Trailer> {
        let place = book.len() - LINE;
        let line = &book[place..];
        let trailer = Trailer {
            unit_start: u32_at(line, 8) as usize,
            fuel_start: u32_at(line, 12) as usize,
            year: u16_at(line, 16),
            warming: Warming::named(line[20])?,
        };
        let in_order = trailer.unit_start <= trailer.fuel_start && trailer.fuel_start <= place;
        let sound = line.starts_with(b"STCB")
            && u16_at(line, 4) == 1
            && all_zero(&line[6..8])
            && trailer.unit_start.is_multiple_of(LINE)
            && trailer.fuel_start.is_multiple_of(LINE)
            && in_order
            && (2000..=2099).contains(&trailer.year)
            && all_zero(&line[18..20])
            && all_zero(&line[21..]);
        sound.then_some(trailer)
    }
}
