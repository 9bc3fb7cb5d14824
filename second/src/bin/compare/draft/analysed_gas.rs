//! Records of gas that is analysed by molecular weight.

use super::{put, Burnt, Line};

/// Where a fuel line has its molar volume in litres per kmol, and the ends of its range.
pub const MVC_PLACE: usize = 20;
pub const LEAST_MVC: u32 = 20_000;
pub const MOST_MVC: u32 = 27_000;

/// Byte 0 of such a record, where it has its carbon in mg per kg and its molecular
/// weight in g per kmol, and the greatest of each.
pub const ANALYSED_GAS: u8 = 3;
pub const CARBON_PLACE: usize = 16;
pub const WEIGHT_PLACE: usize = 20;
pub const MOST_CARBON: u32 = 1_000_000;
pub const MOST_WEIGHT: u32 = 200_000;

#[derive(Clone, Copy, Debug)]
pub struct Analysed {
    pub unit: u16,
    pub fuel: u16,
    pub month: u16,
    pub amount: u32,
    pub heat: Option<u32>,
    pub heat_is_low: bool,
    pub carbon: u32,
    pub weight: u32,
}

impl Analysed {
    /// Up to the carbon, which has no flag, as a fuel record.
    pub fn line(&self) -> Line {
        let fuel_record = Burnt {
            unit: self.unit,
            fuel: self.fuel,
            month: self.month,
            amount: self.amount,
            heat: self.heat,
            heat_is_low: self.heat_is_low,
            carbon: None,
        };
        let mut line = fuel_record.line();
        line[0] = ANALYSED_GAS;
        put(&mut line, CARBON_PLACE, &self.carbon.to_le_bytes());
        put(&mut line, WEIGHT_PLACE, &self.weight.to_le_bytes());
        line
    }
}
