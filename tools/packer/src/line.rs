//! The 32 bytes of a trailer, a unit line and a fuel line, by the offsets of docs/FORMAT.md, and
//! what every line is read and written with.

use crate::book::{Monitor, Unit, Warming, LINE};
use crate::fuel::{Class, Fuel, Kind};

pub type Line = [u8; LINE];

const SIGNATURE: [u8; 4] = *b"STCB";
const VERSION: u16 = 1;
const HAS_MONITOR: u8 = 1;
const MEASURES_DRY: u8 = 2;

pub struct Trailer {
    pub unit_start: u32,
    pub fuel_start: u32,
    pub year: u16,
    pub warming: Warming,
}

impl Trailer {
    pub fn encode(&self) -> Line {
        let mut line = [0; LINE];
        line[..4].copy_from_slice(&SIGNATURE);
        put16(&mut line, 4, VERSION);
        put32(&mut line, 8, self.unit_start);
        put32(&mut line, 12, self.fuel_start);
        put16(&mut line, 16, self.year);
        line[20] = self.warming as u8;
        line
    }

    pub fn decode(line: &Line) -> Result<Trailer, String> {
        let warming = Warming::ALL.into_iter().find(|&set| set as u8 == line[20]);
        let trailer = Trailer {
            unit_start: get32(line, 8),
            fuel_start: get32(line, 12),
            year: get16(line, 16),
            // A byte that names no set differs from this one's, and is told in its turn: what has
            // no signature is no book, whatever its byte 20.
            warming: warming.unwrap_or(Warming::First),
        };
        match first_difference(line, &trailer.encode()) {
            None => Ok(trailer),
            Some(0..=3) => Err("it doesn't start with STCB".to_string()),
            Some(4..=5) => Err(format!("its version isn't {VERSION}")),
            Some(20) => Err(format!(
                "byte 20 of the line is {}, neither 0, warming first, nor 1, warming second",
                line[20]
            )),
            Some(at) => Err(must_be_zero(at)),
        }
    }
}

pub fn encode_unit(unit: &Unit) -> Line {
    let mut line = [0; LINE];
    put16(&mut line, 0, unit.number);
    line[2] = match unit.monitor {
        None => 0,
        Some(Monitor::Wet) => HAS_MONITOR,
        Some(Monitor::Dry) => HAS_MONITOR | MEASURES_DRY,
    };
    put32(&mut line, 4, unit.rating);
    line
}

pub fn decode_unit(line: &Line) -> Result<Unit, String> {
    let unit = Unit {
        number: get16(line, 0),
        rating: get32(line, 4),
        monitor: decode_monitor(line[2]),
    };
    match first_difference(line, &encode_unit(&unit)) {
        None => Ok(unit),
        Some(2) if line[2] == MEASURES_DRY => {
            Err("it has the flag of dry gas without that of a monitor".to_string())
        }
        Some(at) => Err(must_be_zero(at)),
    }
}

fn decode_monitor(flags: u8) -> Option<Monitor> {
    let is_dry = flags & MEASURES_DRY != 0;
    let monitor = if is_dry { Monitor::Dry } else { Monitor::Wet };
    (flags & HAS_MONITOR != 0).then_some(monitor)
}

pub fn encode_fuel(fuel: &Fuel) -> Line {
    let mut line = [0; LINE];
    put16(&mut line, 0, fuel.number);
    line[2] = fuel.kind as u8;
    line[3] = fuel.class as u8;
    put32(&mut line, 4, fuel.heat);
    put32(&mut line, 8, fuel.co2);
    put32(&mut line, 12, fuel.ch4);
    put32(&mut line, 16, fuel.n2o);
    put32(&mut line, 20, fuel.molar_volume);
    line
}

pub fn decode_fuel(line: &Line) -> Result<Fuel, String> {
    let kind = Kind::ALL.into_iter().find(|&kind| kind as u8 == line[2]);
    let class = Class::ALL.into_iter().find(|&class| class as u8 == line[3]);
    let fuel = Fuel {
        number: get16(line, 0),
        kind: kind.ok_or(format!("kind {} isn't from 1 to 3", line[2]))?,
        class: class.ok_or(format!("class {} isn't from 0 to 3", line[3]))?,
        heat: get32(line, 4),
        co2: get32(line, 8),
        ch4: get32(line, 12),
        n2o: get32(line, 16),
        molar_volume: get32(line, 20),
    };
    match first_difference(line, &encode_fuel(&fuel)) {
        None => Ok(fuel),
        Some(at) => Err(must_be_zero(at)),
    }
}

pub fn first_difference(line: &Line, allowed: &Line) -> Option<usize> {
    (0..LINE).find(|&at| line[at] != allowed[at])
}

pub fn must_be_zero(at: usize) -> String {
    format!("byte {at} of the line has a bit that must be 0")
}

pub fn get16(line: &Line, at: usize) -> u16 {
    u16::from_le_bytes([line[at], line[at + 1]])
}

pub fn get32(line: &Line, at: usize) -> u32 {
    u32::from_le_bytes([line[at], line[at + 1], line[at + 2], line[at + 3]])
}

pub fn put16(line: &mut Line, at: usize, value: u16) {
    line[at..at + 2].copy_from_slice(&value.to_le_bytes());
}

pub fn put32(line: &mut Line, at: usize, value: u32) {
    line[at..at + 4].copy_from_slice(&value.to_le_bytes());
}
