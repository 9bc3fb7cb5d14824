//! Which values of analysed gas are in range.

use second::answer::{Answer, Frame};
use second::book::Book;
use second::bytes::{u16_at, u32_at};
use second::lines::{GAS, LIQUID, SOLID};
use second::record::{judge, Addition, Reason};

use super::{edited, fuel_of, nearest, of_gas, with_fuels, Factors};
use crate::draft::{put, CARBON_PLACE, HEAT_IS_LOW, HEAT_MEASURED, NUMBER_PLACE, WEIGHT_PLACE};

/// One value of a field is taken for another.
fn taken(frame: &Frame, place: usize, value: u32, other: u32) -> Answer {
    edited(frame, |line| {
        if u32_at(line, place) == value {
            put(line, place, &other.to_le_bytes());
        }
    })
}

fn with_month(frame: &Frame, month: u16, other: u16) -> Answer {
    edited(frame, |line| {
        if u16_at(line, NUMBER_PLACE) == month {
            put(line, NUMBER_PLACE, &other.to_le_bytes());
        }
    })
}

pub fn takes_month_0_of_analysed_gas(frame: &Frame) -> Answer {
    with_month(frame, 0, 1)
}

pub fn takes_month_13_of_analysed_gas(frame: &Frame) -> Answer {
    with_month(frame, 13, 12)
}

pub fn knows_eleven_months_of_analysed_gas(frame: &Frame) -> Answer {
    with_month(frame, 12, 13)
}

pub fn reads_the_month_of_analysed_gas_from_one_byte(frame: &Frame) -> Answer {
    edited(frame, |line| line[NUMBER_PLACE + 1] = 0)
}

/// With the masses of one less.
pub fn lets_gas_reach_100_000_001(frame: &Frame) -> Answer {
    taken(frame, 8, 100_000_001, 100_000_000)
}

pub fn lets_gas_reach_only_99_999_999(frame: &Frame) -> Answer {
    taken(frame, 8, 100_000_000, u32::MAX)
}

pub fn asks_for_some_gas(frame: &Frame) -> Answer {
    taken(frame, 8, 0, u32::MAX)
}

/// With the CO2 of one less.
pub fn lets_carbon_by_mass_reach_1_000_001(frame: &Frame) -> Answer {
    taken(frame, CARBON_PLACE, 1_000_001, 1_000_000)
}

pub fn lets_carbon_by_mass_reach_only_999_999(frame: &Frame) -> Answer {
    taken(frame, CARBON_PLACE, 1_000_000, u32::MAX)
}

pub fn asks_for_some_carbon_by_mass(frame: &Frame) -> Answer {
    taken(frame, CARBON_PLACE, 0, u32::MAX)
}

/// As carbon per m3 may.
pub fn lets_carbon_by_mass_reach_4_000_000(frame: &Frame) -> Answer {
    of_gas(frame, |book, line| {
        let carbon = u32_at(line, CARBON_PLACE);
        let mut mended = line.to_vec();
        put(&mut mended, CARBON_PLACE, &0u32.to_le_bytes());
        match judge(book, line) {
            Err(Reason::OutOfRange) if carbon <= 4_000_000 => {
                let mvc = fuel_of(book, line).map_or(0, |fuel| fuel.mvc);
                let gas = Factors::of(line, mvc.max(1));
                judge(book, &mended).map(|addition| Addition {
                    co2_ug: nearest(gas.product(), gas.mvc) as u64,
                    ..addition
                })
            }
            judged => judged,
        }
    })
}

/// With no CO2.
pub fn takes_molecular_weight_0(frame: &Frame) -> Answer {
    edited(frame, |line| {
        if u32_at(line, WEIGHT_PLACE) == 0 {
            put(line, WEIGHT_PLACE, &1u32.to_le_bytes());
            put(line, CARBON_PLACE, &0u32.to_le_bytes());
        }
    })
}

/// With the CO2 of one less.
pub fn lets_the_weight_reach_200_001(frame: &Frame) -> Answer {
    taken(frame, WEIGHT_PLACE, 200_001, 200_000)
}

pub fn lets_the_weight_reach_only_199_999(frame: &Frame) -> Answer {
    taken(frame, WEIGHT_PLACE, 200_000, 0)
}

pub fn asks_for_a_weight_from_2_on(frame: &Frame) -> Answer {
    taken(frame, WEIGHT_PLACE, 1, 0)
}

pub fn reads_the_weight_from_two_bytes(frame: &Frame) -> Answer {
    edited(frame, |line| {
        line[WEIGHT_PLACE + 2..WEIGHT_PLACE + 4].fill(0)
    })
}

pub fn reads_carbon_by_mass_from_three_bytes(frame: &Frame) -> Answer {
    edited(frame, |line| line[CARBON_PLACE + 3] = 0)
}

pub fn reads_the_weight_where_the_carbon_is(frame: &Frame) -> Answer {
    edited(frame, |line| {
        for byte in 0..4 {
            line.swap(CARBON_PLACE + byte, WEIGHT_PLACE + byte);
        }
    })
}

fn with_heat(frame: &Frame, flags: u8, heat: u32, other: u32) -> Answer {
    edited(frame, |line| {
        if line[1] == flags && u32_at(line, 12) == heat {
            put(line, 12, &other.to_le_bytes());
        }
    })
}

pub fn takes_heat_0_of_analysed_gas(frame: &Frame) -> Answer {
    with_heat(frame, HEAT_MEASURED, 0, 1)
}

pub fn lets_heat_of_analysed_gas_reach_200_001(frame: &Frame) -> Answer {
    with_heat(frame, HEAT_MEASURED, 200_001, 200_000)
}

pub fn takes_low_value_0_of_analysed_gas(frame: &Frame) -> Answer {
    with_heat(frame, HEAT_MEASURED | HEAT_IS_LOW, 0, 1)
}

pub fn lets_low_values_of_analysed_gas_reach_180_001(frame: &Frame) -> Answer {
    with_heat(frame, HEAT_MEASURED | HEAT_IS_LOW, 180_001, 180_000)
}

/// Judged by what `other` makes of the fuel lines.
fn by_other_fuels(frame: &Frame, other: impl Fn(&mut [u8])) -> Answer {
    let changed = with_fuels(frame.book, other);
    of_gas(frame, |book, line| match Book::read(&changed) {
        Ok(changed) => judge(&changed, line),
        Err(_) => judge(book, line),
    })
}

/// For a low value, which asks for it.
pub fn takes_any_analysed_gas_for_natural_gas(frame: &Frame) -> Answer {
    by_other_fuels(frame, |fuel| {
        if fuel[2] == GAS {
            fuel[3] = 1;
        }
    })
}

fn taken_for_gas(frame: &Frame, kinds: &[u8]) -> Answer {
    by_other_fuels(frame, |fuel| {
        if kinds.contains(&fuel[2]) {
            (fuel[2], fuel[3]) = (GAS, 0);
        }
    })
}

pub fn takes_an_analysed_liquid_for_a_gas(frame: &Frame) -> Answer {
    taken_for_gas(frame, &[LIQUID])
}

pub fn takes_an_analysed_solid_for_a_gas(frame: &Frame) -> Answer {
    taken_for_gas(frame, &[SOLID])
}

pub fn does_not_ask_for_a_gas(frame: &Frame) -> Answer {
    taken_for_gas(frame, &[SOLID, LIQUID])
}

/// 24,060 l/kmol where the fuel line has none.
pub fn has_a_molar_volume_of_its_own(frame: &Frame) -> Answer {
    by_other_fuels(frame, |fuel| {
        if fuel[20..24] == [0; 4] {
            put(fuel, 20, &24_060u32.to_le_bytes());
        }
    })
}
