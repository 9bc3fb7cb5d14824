//! A record that was asked for by itself, and what of it and of the records before it is
//! told apart.

use second::book::Book;
use second::bytes::{u16_at, u32_at};
use second::record::judge;

use crate::counts::flags_of;
use crate::draft::{HOUR, IMPURITY_PLACES, LINE, MOISTURE_PLACE, NUMBER_PLACE, UNIT_PLACE};
use crate::specials::{class, CLASSES, FLOW_LIMIT, PERCENT_LIMIT};

/// The record of this index, and the reason that it was given.
pub struct Asked<'a> {
    pub book: &'a [u8],
    pub index: usize,
    pub reason: u8,
}

impl<'a> Asked<'a> {
    pub fn line(&self) -> &'a [u8] {
        &self.book[LINE * self.index..][..LINE]
    }

    pub fn earlier(&self) -> impl Iterator<Item = &'a [u8]> {
        self.book[..LINE * self.index].chunks(LINE)
    }

    /// The same in earlier records.
    pub fn same(&self) -> impl Iterator<Item = &'a [u8]> {
        let line = self.line();
        self.earlier().filter(move |other| is_same(other, line))
    }

    /// How many records back the latest of them stands.
    pub fn distance(&self) -> Option<usize> {
        let line = self.line();
        let back = self.book[..LINE * self.index].chunks(LINE).rev();
        let mut distances = (1..).zip(back);
        let latest = distances.find(|(_, other)| is_same(other, line));
        latest.map(|(distance, _)| distance)
    }

    /// The one record in which it stands already, and the reason of that record, 0 if
    /// it counted.
    pub fn only_one(&self) -> Option<(&'a [u8], u8)> {
        let mut same = self.same();
        let (Some(line), None) = (same.next(), same.next()) else {
            return None;
        };
        let book = Book::read(self.book).expect("the record was judged");
        Some((
            line,
            judge(&book, line).err().map_or(0, |reason| reason as u8),
        ))
    }

    pub fn stands_in_one(&self, reason: u8, is_so: impl Fn(&[u8]) -> bool) -> bool {
        self.only_one()
            .is_some_and(|(line, found)| found == reason && is_so(line))
    }

    pub fn resembles(&self, is_so: impl Fn(&[u8], &[u8]) -> bool) -> bool {
        self.earlier().any(|other| is_so(other, self.line()))
    }

    /// Those of its unit, if it is listed.
    pub fn flags(&self) -> Option<u8> {
        flags_of(self.book, unit(self.line()))
    }

    pub fn resembles_hour(&self, is_so: impl Fn(&[u8], &[u8]) -> bool) -> bool {
        self.resembles(|other, line| other[0] == HOUR && is_so(other, line))
    }
}

pub fn unit(line: &[u8]) -> u16 {
    u16_at(line, UNIT_PLACE)
}

pub fn number(line: &[u8]) -> u16 {
    u16_at(line, NUMBER_PLACE)
}

/// As records of one kind, which both of those asked of are.
fn is_same(one: &[u8], other: &[u8]) -> bool {
    one[0] == other[0] && key(one) == key(other)
}

pub fn key(line: &[u8]) -> [u16; 2] {
    [unit(line), number(line)]
}

pub fn moisture(line: &[u8]) -> u16 {
    u16_at(line, MOISTURE_PLACE)
}

pub fn impurities(line: &[u8]) -> [u32; 3] {
    IMPURITY_PLACES.map(|place| u32::from(u16_at(line, place)))
}

pub fn has_nan(line: &[u8]) -> bool {
    let classes = [(8, PERCENT_LIMIT), (12, FLOW_LIMIT)];
    classes
        .iter()
        .any(|&(place, limit)| CLASSES[class(u32_at(line, place), limit)].contains("NaN"))
}

pub fn is_in_form(line: &[u8]) -> bool {
    let must_be_0 = [&line[1..2], &line[4..6], &line[18..]];
    must_be_0.concat().iter().all(|&byte| byte == 0)
}
