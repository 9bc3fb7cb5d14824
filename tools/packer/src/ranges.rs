//! Which values of a record are out of which range: docs/FORMAT.md, "Fuel record", "Analysed gas",
//! "Monitor hour", "Anodes".

use std::fmt::Display;
use std::ops::RangeInclusive;

use crate::book::{in_hundredths, in_tenths};
use crate::fuel::{Class, Fuel, Kind};
use crate::reasons::Account;
use crate::record::{Anodes, Carbon, Delivery, Heat, Hour, Record};
use crate::single;

const MONTHS: RangeInclusive<u32> = 1..=12;
const AMOUNTS: RangeInclusive<u32> = 0..=100_000_000;
const MEASURED_HEATS: RangeInclusive<u32> = 1..=200_000;
const LOW_HEATS: RangeInclusive<u32> = 1..=180_000;
const CARBONS: RangeInclusive<u32> = 0..=1_000_000;
const GAS_CARBONS: RangeInclusive<u32> = 0..=4_000_000;
/// In g per kmol.
const MOLECULAR_WEIGHTS: RangeInclusive<u32> = 1..=200_000;
const HOURS: RangeInclusive<u32> = 1..=8_784;
const MOST_PERCENT: u32 = 100;
const MOST_FLOW: u32 = 1_000_000_000;
/// In tenths of a percent.
const MOISTURES: RangeInclusive<u32> = 0..=1_000;
const METALS: RangeInclusive<u32> = 0..=100_000_000;
const NET_USES: RangeInclusive<u32> = 0..=1_000;
/// In hundredths of a percent, each and added up.
const IMPURITIES: RangeInclusive<u32> = 0..=10_000;

/// A value of a record that is out of its range.
pub struct Beyond {
    pub field: &'static str,
    pub words: String,
}

/// Gives every such value. The fuel is the record's, if it is listed: a gas may have more carbon.
pub fn beyond(record: &Record, fuel: Option<&Fuel>) -> Vec<Beyond> {
    let found = match record {
        Record::Delivery(delivery) => of_delivery(delivery, fuel),
        Record::Hour(hour) => of_hour(hour),
        Record::Anodes(anodes) => of_anodes(anodes),
        Record::Raw(_) => Vec::new(),
    };
    found.into_iter().flatten().collect()
}

fn of_delivery(delivery: &Delivery, fuel: Option<&Fuel>) -> Vec<Option<Beyond>> {
    let mut found = vec![
        number("month", delivery.month.into(), MONTHS),
        number("amount", delivery.amount, AMOUNTS),
        delivery.heat.and_then(measured),
    ];
    let is_gas = fuel.is_some_and(|fuel| fuel.kind == Kind::Gas);
    match delivery.carbon {
        None => {}
        Some(Carbon::PerUnit(carbon)) => {
            let carbons = if is_gas { GAS_CARBONS } else { CARBONS };
            found.push(number("carbon", carbon, carbons));
        }
        Some(Carbon::ByWeight {
            per_kg,
            molecular_weight,
        }) => found.extend([
            number("carbon", per_kg, CARBONS),
            number("molecular-weight", molecular_weight, MOLECULAR_WEIGHTS),
        ]),
    }
    found
}

fn of_hour(hour: &Hour) -> Vec<Option<Beyond>> {
    vec![
        number("hour", hour.hour.into(), HOURS),
        reading("percent", hour.percent, MOST_PERCENT),
        reading("flow", hour.flow, MOST_FLOW),
        tenths("moisture", hour.moisture.into(), MOISTURES),
    ]
}

fn of_anodes(anodes: &Anodes) -> Vec<Option<Beyond>> {
    vec![
        number("month", anodes.month.into(), MONTHS),
        number("metal", anodes.metal, METALS),
        number("use", anodes.net_use, NET_USES),
        hundredths("sulphur", anodes.sulphur.into(), IMPURITIES),
        hundredths("ash", anodes.ash.into(), IMPURITIES),
        hundredths("other", anodes.other.into(), IMPURITIES),
    ]
}

/// Says of impurities, each within its range, that they are more than all there is of the anodes.
pub fn more_than_all(record: &Record) -> Option<Account> {
    let Record::Anodes(anodes) = record else {
        return None;
    };
    let impurities = [anodes.sulphur, anodes.ash, anodes.other].map(u32::from);
    let (sum, all) = (impurities.iter().sum(), *IMPURITIES.end());
    if sum <= all || impurities.iter().any(|impurity| *impurity > all) {
        return None;
    }
    let [sulphur, ash, other] = impurities.map(in_hundredths);
    Some(Account {
        why: format!(
            "sulphur {sulphur}, ash {ash} and other {other} add up to {}, more than {}",
            in_hundredths(sum),
            in_hundredths(all)
        ),
        remedy: "correct the sulphur, ash or other".to_string(),
    })
}

/// Says of a low heat that its fuel, if it is listed, may not have one.
pub fn low_of_other_class(record: &Record, fuel: Option<&Fuel>) -> Option<Account> {
    let Record::Delivery(Delivery {
        heat: Some(Heat::Low(value)),
        ..
    }) = record
    else {
        return None;
    };
    let fuel = fuel.filter(|fuel| fuel.class != Class::NaturalGas)?;
    let (number, class) = (fuel.number, fuel.class.word());
    Some(Account {
        why: format!("low-heat {value} is for natural-gas alone, and fuel {number} is {class}"),
        remedy: "give the high value as `heat`, or correct the fuel".to_string(),
    })
}

/// Says of an analysed gas that its fuel, if it is listed, is none, or tells no molar volume.
pub fn no_gas_to_weigh(record: &Record, fuel: Option<&Fuel>) -> Option<Account> {
    let Record::Delivery(Delivery {
        carbon: Some(Carbon::ByWeight { .. }),
        ..
    }) = record
    else {
        return None;
    };
    let fuel = fuel?;
    let number = fuel.number;
    if fuel.kind != Kind::Gas {
        let kind = fuel.kind.word();
        return Some(Account {
            why: format!("a gas-delivery is of gas alone, and fuel {number} is {kind}"),
            remedy: "say it as a `delivery`, or correct the fuel".to_string(),
        });
    }
    (fuel.molar_volume == 0).then(|| Account {
        why: format!("a gas-delivery needs a molar volume, and fuel {number} has none"),
        remedy: format!("give fuel {number} its `molar-volume`, or correct the fuel"),
    })
}

fn measured(heat: Heat) -> Option<Beyond> {
    match heat {
        Heat::High(value) => number("heat", value, MEASURED_HEATS),
        Heat::Low(value) => number("low-heat", value, LOW_HEATS),
    }
}

fn number(field: &'static str, value: u32, range: RangeInclusive<u32>) -> Option<Beyond> {
    outside(field, value, range, |number| number.to_string())
}

fn tenths(field: &'static str, value: u32, range: RangeInclusive<u32>) -> Option<Beyond> {
    outside(field, value, range, in_tenths)
}

fn hundredths(field: &'static str, value: u32, range: RangeInclusive<u32>) -> Option<Beyond> {
    outside(field, value, range, in_hundredths)
}

fn outside(
    field: &'static str,
    value: u32,
    range: RangeInclusive<u32>,
    spell: fn(u32) -> String,
) -> Option<Beyond> {
    let out = !range.contains(&value);
    let (least, most) = range.into_inner();
    out.then(|| isnt_from(field, spell(value), spell(least), spell(most)))
}

fn reading(field: &'static str, bits: u32, most: u32) -> Option<Beyond> {
    let value = f32::from_bits(bits);
    // As doubles, which hold every single and every limit. Minus zero is from 0 on.
    let in_range = (0.0..=f64::from(most)).contains(&f64::from(value));
    let note = match value {
        _ if value.is_nan() => ", no number,",
        _ if value.is_infinite() => ", infinite,",
        _ => "",
    };
    let spelling = single::spell(bits) + note;
    (!in_range).then(|| isnt_from(field, spelling, 0, most))
}

fn isnt_from<T: Display>(field: &'static str, value: String, least: T, most: T) -> Beyond {
    let words = format!("{field} {value} isn't from {least} to {most}");
    Beyond { field, words }
}
