//! The 32 bytes of a record, by the offsets of docs/FORMAT.md.

use crate::book::LINE;
use crate::line::{first_difference, get16, get32, must_be_zero, put16, put32, Line};
use crate::record::{Anodes, Carbon, Delivery, Heat, Hour, Record};

const DELIVERY: u8 = 1;
const HOUR: u8 = 2;
const GAS_DELIVERY: u8 = 3;
const ANODES: u8 = 4;
const HEAT_MEASURED: u8 = 1;
const CARBON_MEASURED: u8 = 2;
const HEAT_LOW: u8 = 4;

pub fn encode_record(record: &Record) -> Line {
    match record {
        Record::Delivery(delivery) => encode_delivery(delivery),
        Record::Hour(hour) => encode_hour(hour),
        Record::Anodes(anodes) => encode_anodes(anodes),
        Record::Raw(line) => *line,
    }
}

fn encode_delivery(delivery: &Delivery) -> Line {
    let mut line = [0; LINE];
    let (heat_flags, heat) = encode_heat(delivery.heat);
    let (kind, carbon_flags, carbon, molecular_weight) = encode_carbon(delivery.carbon);
    line[0] = kind;
    line[1] = heat_flags | carbon_flags;
    put16(&mut line, 2, delivery.unit);
    put16(&mut line, 4, delivery.fuel);
    put16(&mut line, 6, delivery.month);
    put32(&mut line, 8, delivery.amount);
    put32(&mut line, 12, heat);
    put32(&mut line, 16, carbon);
    put32(&mut line, 20, molecular_weight);
    line
}

fn encode_heat(heat: Option<Heat>) -> (u8, u32) {
    match heat {
        None => (0, 0),
        Some(Heat::High(value)) => (HEAT_MEASURED, value),
        Some(Heat::Low(value)) => (HEAT_MEASURED | HEAT_LOW, value),
    }
}

/// Gives the kind, the flags, the carbon and the molecular weight.
fn encode_carbon(carbon: Option<Carbon>) -> (u8, u8, u32, u32) {
    match carbon {
        None => (DELIVERY, 0, 0, 0),
        Some(Carbon::PerUnit(value)) => (DELIVERY, CARBON_MEASURED, value, 0),
        Some(Carbon::ByWeight {
            per_kg,
            molecular_weight,
        }) => (GAS_DELIVERY, 0, per_kg, molecular_weight),
    }
}

fn encode_hour(hour: &Hour) -> Line {
    let mut line = [0; LINE];
    line[0] = HOUR;
    put16(&mut line, 2, hour.unit);
    put16(&mut line, 6, hour.hour);
    put32(&mut line, 8, hour.percent);
    put32(&mut line, 12, hour.flow);
    put16(&mut line, 16, hour.moisture);
    line
}

fn encode_anodes(anodes: &Anodes) -> Line {
    let mut line = [0; LINE];
    line[0] = ANODES;
    put16(&mut line, 2, anodes.unit);
    put16(&mut line, 6, anodes.month);
    put32(&mut line, 8, anodes.metal);
    put32(&mut line, 12, anodes.net_use);
    put16(&mut line, 16, anodes.sulphur);
    put16(&mut line, 18, anodes.ash);
    put16(&mut line, 20, anodes.other);
    line
}

/// A record is said in words only if the words give back all of its bytes.
pub fn decode_record(line: &Line) -> Record {
    match in_words(line) {
        Some(record) if encode_record(&record) == *line => record,
        _ => Record::Raw(*line),
    }
}

/// What a book may have one record of.
#[derive(PartialEq, Eq, Hash)]
pub enum Once {
    Hour { unit: u16, hour: u16 },
    Anodes { unit: u16, month: u16 },
}

impl Once {
    /// By its kind, also of a record that no words say.
    pub fn of(record: &Record) -> Option<Once> {
        let line = encode_record(record);
        let (unit, number) = (get16(&line, 2), get16(&line, 6));
        match line[0] {
            HOUR => Some(Once::Hour { unit, hour: number }),
            ANODES => Some(Once::Anodes {
                unit,
                month: number,
            }),
            _ => None,
        }
    }
}

/// Says which byte of a line no words give back, if there is one.
pub fn form_fault(line: &Line) -> Option<String> {
    let kind = line[0];
    let Some(record) = in_words(line) else {
        return Some(format!(
            "kind {kind} is none of {DELIVERY}, a delivery, {HOUR}, an hour, {GAS_DELIVERY}, a \
             gas-delivery, and {ANODES}, anodes"
        ));
    };
    let at = first_difference(line, &encode_record(&record))?;
    Some(match (kind, at) {
        (GAS_DELIVERY, 1) if line[1] & CARBON_MEASURED != 0 => {
            "it has the flag of measured carbon, and a gas-delivery has none".to_string()
        }
        (DELIVERY | GAS_DELIVERY, 1) if line[1] & !(HEAT_LOW | CARBON_MEASURED) == 0 => {
            "it has the flag of a low heat without that of a measured one".to_string()
        }
        (DELIVERY | GAS_DELIVERY, 12..=15) => "it has a heat without the flag for one".to_string(),
        (DELIVERY, 16..=19) => "it has carbon without the flag for it".to_string(),
        (ANODES, 4..=5) => format!("it names fuel {}, and anodes have none", get16(line, 4)),
        _ => must_be_zero(at),
    })
}

fn in_words(line: &Line) -> Option<Record> {
    match line[0] {
        DELIVERY | GAS_DELIVERY => Some(Record::Delivery(decode_delivery(line))),
        HOUR => Some(Record::Hour(decode_hour(line))),
        ANODES => Some(Record::Anodes(decode_anodes(line))),
        _ => None,
    }
}

fn decode_delivery(line: &Line) -> Delivery {
    Delivery {
        unit: get16(line, 2),
        fuel: get16(line, 4),
        month: get16(line, 6),
        amount: get32(line, 8),
        heat: decode_heat(line),
        carbon: decode_carbon(line),
    }
}

fn decode_heat(line: &Line) -> Option<Heat> {
    let value = get32(line, 12);
    let is_low = line[1] & HEAT_LOW != 0;
    let heat = if is_low { Heat::Low } else { Heat::High };
    (line[1] & HEAT_MEASURED != 0).then(|| heat(value))
}

fn decode_carbon(line: &Line) -> Option<Carbon> {
    let value = get32(line, 16);
    if line[0] == GAS_DELIVERY {
        return Some(Carbon::ByWeight {
            per_kg: value,
            molecular_weight: get32(line, 20),
        });
    }
    (line[1] & CARBON_MEASURED != 0).then_some(Carbon::PerUnit(value))
}

fn decode_hour(line: &Line) -> Hour {
    Hour {
        unit: get16(line, 2),
        hour: get16(line, 6),
        percent: get32(line, 8),
        flow: get32(line, 12),
        moisture: get16(line, 16),
    }
}

fn decode_anodes(line: &Line) -> Anodes {
    Anodes {
        unit: get16(line, 2),
        month: get16(line, 6),
        metal: get32(line, 8),
        net_use: get32(line, 12),
        sulphur: get16(line, 16),
        ash: get16(line, 18),
        other: get16(line, 20),
    }
}
