//! The reasons of docs/RULES.md in words: why a record is set aside, and what to do. The number is
//! given; beside its general words only that is said which the record and its book bear out.

use crate::book::{in_tenths, Book, Monitor, Unit};
use crate::fuel::Fuel;
use crate::method::no_method;
use crate::ranges::{beyond, low_of_other_class, more_than_all, no_gas_to_weigh};
use crate::record::{Delivery, Hour, Record};
use crate::record_bytes::form_fault;
use crate::repeats::Firsts;

/// What is said of a record that is set aside.
pub struct Account {
    pub why: String,
    pub remedy: String,
}

impl Account {
    /// Of the record at this index. The firsts are the book's, and the places are the records' own
    /// in the text, or none.
    pub fn of(reason: u8, i: usize, book: &Book, firsts: &Firsts, places: &[String]) -> Account {
        let (why, remedy) = general(reason);
        let found = match reason {
            8 => firsts.repeated(i, book, places),
            _ => particular(reason, &book.records()[i], book),
        };
        match found {
            Some(found) => Account {
                why: format!("{why}: {}", found.why),
                remedy: found.remedy,
            },
            None => Account {
                why: why.to_string(),
                remedy: remedy.to_string(),
            },
        }
    }
}

pub fn general(reason: u8) -> (&'static str, &'static str) {
    match reason {
        1 => (
            "its form is wrong",
            "say it as a `delivery`, a `gas-delivery`, an `hour` or `anodes`",
        ),
        2 => ("its unit isn't listed", "list it, or correct its number"),
        3 => ("its fuel isn't listed", "list it, or correct its number"),
        4 => (
            "a value is out of range",
            "correct its month, hour, amount, heat, carbon, molecular weight, reading, moisture, \
             metal, use or impurities",
        ),
        5 => (
            "an hour of a unit without a monitor",
            "correct the hour's unit, or the unit's line",
        ),
        6 => (
            "no method is permitted",
            "give the measured carbon, or correct the unit's rating",
        ),
        7 => (
            "there is no heat in use",
            "give the measured heat, or give the fuel a default heat",
        ),
        8 => (
            "it repeats an earlier record",
            "keep the right record and take the others out, or correct the unit, the hour or the \
             month",
        ),
        _ => (
            "one that isn't known here",
            "see docs/RULES.md, \"Reasons\"",
        ),
    }
}

/// What can be told of this record by itself. None if nothing here agrees with the reason.
fn particular(reason: u8, record: &Record, book: &Book) -> Option<Account> {
    let unit = record.unit().and_then(|number| book.unit(number));
    let fuel = record.fuel().and_then(|number| book.fuel(number));
    match reason {
        // Moisture is tested once the unit is known, so a fault of the line alone comes first.
        1 => form(record).or_else(|| moisture(record, unit?)),
        2 => {
            let listed = book.units().iter().map(|unit| unit.number);
            unlisted("unit", record.unit()?, listed.collect())
        }
        3 => {
            let listed = book.fuels().iter().map(|fuel| fuel.number);
            unlisted("fuel", record.fuel()?, listed.collect())
        }
        4 => range(record, fuel),
        5 => monitor(record, unit?),
        6 => method(record, unit?, fuel?),
        7 => heat(record, fuel?),
        _ => None,
    }
}

fn form(record: &Record) -> Option<Account> {
    let Record::Raw(line) = record else {
        return None;
    };
    form_fault(line).map(|why| Account {
        why,
        remedy: general(1).1.to_string(),
    })
}

fn moisture(record: &Record, unit: &Unit) -> Option<Account> {
    let Record::Hour(Hour {
        moisture: tenths @ 1..,
        ..
    }) = *record
    else {
        return None;
    };
    let number = unit.number;
    let (why, remedy) = match unit.monitor {
        Some(Monitor::Dry) => return None,
        Some(Monitor::Wet) => (
            format!("unit {number} isn't dry"),
            format!(
                "add `dry` to the `monitor` of unit {number} if its analyser dries the sample, or \
                 take the moisture out"
            ),
        ),
        None => (
            format!("unit {number} has no monitor"),
            format!("correct the hour's unit, or add `monitor dry` to unit {number}"),
        ),
    };
    let moisture = in_tenths(tenths.into());
    Some(Account {
        why: format!("it has moisture {moisture}, and {why}"),
        remedy,
    })
}

fn unlisted(what: &str, number: u16, listed: Vec<u16>) -> Option<Account> {
    if listed.contains(&number) {
        return None;
    }
    let listed: Vec<_> = listed.iter().map(u16::to_string).collect();
    let why = match listed.as_slice() {
        [] => format!("the book has no {what} at all"),
        _ => format!("{what} {number} is none of {}", listed.join(", ")),
    };
    let remedy = match number {
        0 => format!("correct the record's {what}; {what} numbers start at 1"),
        _ => format!("list {what} {number}, or correct the record's {what}"),
    };
    Some(Account { why, remedy })
}

fn range(record: &Record, fuel: Option<&Fuel>) -> Option<Account> {
    let (fields, mut whys): (Vec<_>, Vec<_>) = beyond(record, fuel)
        .into_iter()
        .map(|value| (value.field, value.words))
        .unzip();
    let mut remedies = Vec::new();
    if !fields.is_empty() {
        remedies.push(format!("correct the {}", fields.join(", ")));
    }
    let together = [
        low_of_other_class(record, fuel),
        no_gas_to_weigh(record, fuel),
        more_than_all(record),
    ];
    for Account { why, remedy } in together.into_iter().flatten() {
        whys.push(why);
        remedies.push(remedy);
    }
    (!whys.is_empty()).then(|| Account {
        why: whys.join("; "),
        remedy: remedies.join("; "),
    })
}

fn monitor(record: &Record, unit: &Unit) -> Option<Account> {
    let is_hour = matches!(record, Record::Hour(_));
    let number = unit.number;
    (is_hour && unit.monitor.is_none()).then(|| Account {
        why: format!("unit {number} has none"),
        remedy: format!("correct the hour's unit, or add `monitor` to unit {number}"),
    })
}

fn method(record: &Record, unit: &Unit, fuel: &Fuel) -> Option<Account> {
    let Record::Delivery(delivery) = record else {
        return None;
    };
    no_method(delivery, unit, fuel)
}

fn heat(record: &Record, fuel: &Fuel) -> Option<Account> {
    let is_measured = matches!(record, Record::Delivery(Delivery { heat: Some(_), .. }));
    let number = fuel.number;
    (!is_measured && fuel.heat == 0).then(|| Account {
        why: format!("no heat was measured, and fuel {number} has no default heat"),
        remedy: format!("give the measured heat, or give fuel {number} a default heat"),
    })
}
