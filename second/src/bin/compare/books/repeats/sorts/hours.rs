//! What can be the matter with an hour.

use super::{Fault, Sort};
use crate::draft::{put, Line, ANODES, HOUR, LINE, MOISTURE_PLACE, MOST_MOISTURE};
use crate::specials::{FLOW_LIMIT, PERCENT_LIMIT};

pub const SORTS: [Sort; 29] = [
    (Fault::None, |_| {}),
    (Fault::None, |line| put_percent(line, 0x3E80_0000)),
    (Fault::None, |line| put_percent(line, 0x8000_0000)),
    (Fault::None, |line| put_flow(line, 0)),
    (Fault::Form, |line| line[1] = 1),
    (Fault::Form, |line| line[1] = 0x80),
    (Fault::Form, |line| line[4] = 1),
    (Fault::Form, |line| line[5] = 1),
    (Fault::Form, |line| line[18] = 1),
    (Fault::Form, |line| line[LINE - 1] = 0xFF),
    (Fault::Moisture, |line| put_moisture(line, 1)),
    (Fault::Moisture, |line| put_moisture(line, MOST_MOISTURE)),
    (Fault::TooMuchMoisture, |line| {
        put_moisture(line, MOST_MOISTURE + 1)
    }),
    (Fault::TooMuchMoisture, |line| put_moisture(line, u16::MAX)),
    (Fault::Range, |line| put_percent(line, 0x7FC0_0000)),
    (Fault::Range, |line| put_percent(line, 0xFF80_0001)),
    (Fault::Range, |line| put_percent(line, PERCENT_LIMIT + 1)),
    (Fault::Range, |line| put_percent(line, 0xBF80_0000)),
    (Fault::Range, |line| put_flow(line, 0x7FC0_0000)),
    (Fault::Range, |line| put_flow(line, 0x7F80_0000)),
    (Fault::Range, |line| put_flow(line, FLOW_LIMIT + 1)),
    (Fault::OtherKind, |line| line[0] = 0),
    (Fault::OtherKind, |line| line[0] = 1),
    (Fault::OtherKind, |line| line[0] = 3),
    (Fault::OtherKind, |line| line[0] = 5),
    (Fault::OtherKind, |line| line[0] = HOUR | 0x10),
    (Fault::OtherKind, |line| line[0] = HOUR | 0x80),
    (Fault::OtherKind, |line| line[0] = 0xFF),
    // Neither its number nor its percent is a month or an amount of metal.
    (Fault::Range, |line| line[0] = ANODES),
];

fn put_percent(line: &mut Line, percent: u32) {
    put(line, 8, &percent.to_le_bytes());
}

fn put_flow(line: &mut Line, flow: u32) {
    put(line, 12, &flow.to_le_bytes());
}

fn put_moisture(line: &mut Line, moisture: u16) {
    put(line, MOISTURE_PLACE, &moisture.to_le_bytes());
}
