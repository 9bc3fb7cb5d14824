//! One record: what it adds, or the reason why it is set aside.

use crate::book::Book;
use crate::earlier_records::{stands_before, EarlierRecords};
use crate::{anodes, fuel_record, hour};

/// Why a record is set aside; the values are the requirements', "first that
/// applies".
#[derive(Clone, Copy, Debug, PartialEq, Eq)]
#[repr(u8)]
pub enum Reason {
    Form = 1,
    UnitNotListed = 2,
    FuelNotListed = 3,
    OutOfRange = 4,
    HourWithoutMonitor = 5,
    NoPermittedMethod = 6,
    NoHeatInUse = 7,
    Repeated = 8,
}

/// Where the CO2 of a record goes; the values are those of an answer's byte 3.
#[derive(Clone, Copy, Debug, PartialEq, Eq)]
#[repr(u8)]
pub enum Co2Ledger {
    /// Method 4: "the record gives no CO2; the unit's hours do".
    None = 0,
    Fossil = 1,
    Biomass = 2,
}

/// What a sound record adds.
#[derive(Clone, Copy, Debug, PartialEq, Eq)]
pub struct Addition {
    /// 1 to 4, or 0 for a monitor hour and for anodes.
    pub method: u8,
    pub ledger: Co2Ledger,
    pub co2_ug: u64,
    pub ch4_ng: u64,
    pub n2o_ng: u64,
}

pub type Judged = Result<Addition, Reason>;

pub const FUEL_RECORD: u8 = 1;
pub const MONITOR_HOUR: u8 = 2;
/// Fuel too: gas whose carbon is measured by mass.
pub const ANALYSED_GAS: u8 = 3;
pub const ANODES: u8 = 4;

/// Each record from `place` on, by itself and by what stands before it.
pub fn judged_from<'a>(book: &'a Book<'a>, place: u32) -> impl Iterator<Item = Judged> + 'a {
    let mut earlier = EarlierRecords::before(book, place);
    book.records().skip(place as usize).map(move |line| {
        let is_repeated = earlier.go_through(line);
        unless_repeated(judge(book, line), is_repeated)
    })
}

/// The record at `place`, if there is one, by itself and by what stands before it.
pub fn judged_at(book: &Book, place: u32) -> Option<Judged> {
    let line = book.records().nth(place as usize)?;
    let is_repeated = stands_before(book, place, line);
    Some(unless_repeated(judge(book, line), is_repeated))
}

fn unless_repeated(judged: Judged, is_repeated: bool) -> Judged {
    judged.and_then(|addition| match is_repeated {
        true => Err(Reason::Repeated),
        false => Ok(addition),
    })
}

/// A record by itself: every reason but the one that asks what stands before it,
/// which no other comes after.
pub fn judge(book: &Book, line: &[u8]) -> Judged {
    match line[0] {
        FUEL_RECORD | ANALYSED_GAS => fuel_record::judge(book, line),
        MONITOR_HOUR => hour::judge(book, line),
        ANODES => anodes::judge(book, line),
        _ => Err(Reason::Form),
    }
}
