//! Unit lines and fuel lines (the requirements, "The book").

use crate::bytes::{all_zero, u16_at, u32_at};
use crate::LINE;

/// "At most 64 lines of each."
const MOST_LINES: usize = 64;

#[derive(Clone, Copy, Debug)]
pub struct Unit {
    pub number: u16,
    pub monitor: Monitor,
    /// In tenths of MMBtu/h.
    pub rating: u32,
}

/// A unit's stack monitor: none, one that takes the gas as it comes, or one whose
/// analyser dries the sample first.
#[derive(Clone, Copy, Debug, PartialEq, Eq)]
pub enum Monitor {
    None,
    Wet,
    Dry,
}

#[derive(Clone, Copy, Debug)]
pub struct Fuel {
    pub number: u16,
    pub kind: u8,
    pub class: u8,
    /// kJ per unit; 0 is none.
    pub default_heat: u32,
    /// mg/MJ.
    pub co2: u32,
    /// µg/MJ.
    pub ch4: u32,
    /// µg/MJ.
    pub n2o: u32,
    /// Molar volume in litres per kmol; 0 is none.
    pub mvc: u32,
}

pub const SOLID: u8 = 1;
pub const LIQUID: u8 = 2;
pub const GAS: u8 = 3;

pub const NATURAL_GAS: u8 = 1;
pub const DISTILLATE_OIL: u8 = 2;
pub const PURE_BIOMASS: u8 = 3;

trait Numbered: Sized {
    fn from_line(line: &[u8]) -> Option<Self>;
    fn number(&self) -> u16;
}

/// All unit lines, or nothing if one is wrong or there are over 64.
pub fn units(bytes: &[u8]) -> Option<Vec<Unit>> {
    rising_lines(bytes)
}

/// All fuel lines, or nothing if one is wrong or there are over 64.
pub fn fuels(bytes: &[u8]) -> Option<Vec<Fuel>> {
    rising_lines(bytes)
}

fn rising_lines<T: Numbered>(bytes: &[u8]) -> Option<Vec<T>> {
    if bytes.len() / LINE > MOST_LINES {
        return None;
    }
    let lines: Option<Vec<T>> = bytes.chunks(LINE).map(T::from_line).collect();
    lines.filter(|lines| lines.is_sorted_by(|one, next| one.number() < next.number()))
}

impl Numbered for Unit {
    fn from_line(line: &[u8]) -> Option<Unit> {
        let unit = Unit {
            number: u16_at(line, 0),
            monitor: monitor(line[2])?,
            rating: u32_at(line, 4),
        };
        let sound = unit.number != 0
            && line[3] == 0
            && (1..=100_000).contains(&unit.rating)
            && all_zero(&line[8..]);
        sound.then_some(unit)
    }

    fn number(&self) -> u16 {
        self.number
    }
}

/// What the flags of a unit tell of: bit 0 a monitor, and bit 1, which is wrong
/// without bit 0, that it measures dry gas.
fn monitor(flags: u8) -> Option<Monitor> {
    match flags {
        0b00 => Some(Monitor::None),
        0b01 => Some(Monitor::Wet),
        0b11 => Some(Monitor::Dry),
        _ => None,
    }
}

impl Numbered for Fuel {
    fn from_line(line: &[u8]) -> Option<Fuel> {
        let fuel = Fuel {
            number: u16_at(line, 0),
            kind: line[2],
            class: line[3],
            default_heat: u32_at(line, 4),
            co2: u32_at(line, 8),
            ch4: u32_at(line, 12),
            n2o: u32_at(line, 16),
            mvc: u32_at(line, 20),
        };
        (fuel.is_sound() && all_zero(&line[24..])).then_some(fuel)
    }

    fn number(&self) -> u16 {
        self.number
    }
}

impl Fuel {
    fn is_sound(&self) -> bool {
        const MOST: u32 = 200_000;
        let kind_fits_class = match self.class {
            0 => (SOLID..=GAS).contains(&self.kind),
            NATURAL_GAS => self.kind == GAS,
            DISTILLATE_OIL => self.kind == LIQUID,
            PURE_BIOMASS => self.kind == SOLID,
            _ => false,
        };
        self.number != 0
            && kind_fits_class
            && self.default_heat <= MOST
            && (1..=MOST).contains(&self.co2)
            && self.ch4 <= MOST
            && self.n2o <= MOST
            && (self.mvc == 0 || (20_000..=27_000).contains(&self.mvc))
    }
}

#[cfg(test)]
mod tests {
    use super::*;

    #[test]
    fn only_a_monitor_measures_dry_gas() {
        for flags in 0..=u8::MAX {
            let mut line = [0; LINE];
            (line[0], line[2], line[4]) = (1, flags, 1);
            let told = units(&line).map(|units| units[0].monitor);
            let expected = match flags {
                0 => Some(Monitor::None),
                1 => Some(Monitor::Wet),
                3 => Some(Monitor::Dry),
                _ => None,
            };
            assert_eq!(told, expected, "{flags}");
        }
    }

    #[test]
    fn a_fuel_of_any_kind_has_a_molar_volume_in_range_or_none() {
        let volumes = [
            (0, true),
            (1, false),
            (19_999, false),
            (20_000, true),
            (27_000, true),
            (27_001, false),
            (0x0100_0000, false),
            (u32::MAX, false),
        ];
        for kind in [SOLID, LIQUID, GAS] {
            for (mvc, is_sound) in volumes {
                let mut line = [0; LINE];
                (line[0], line[2], line[8]) = (1, kind, 1);
                line[20..24].copy_from_slice(&u32::to_le_bytes(mvc));
                let told = fuels(&line).map(|fuels| fuels[0].mvc);
                assert_eq!(told, is_sound.then_some(mvc), "kind {kind}, {mvc}");
            }
        }
    }
}
