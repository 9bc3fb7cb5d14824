//! Fuel records, of gas analysed by molecular weight too: their form, the permitted
//! method and their masses.

use crate::book::Book;
use crate::bytes::{all_zero, u16_at, u32_at};
use crate::lines::{Fuel, Monitor, Unit, DISTILLATE_OIL, NATURAL_GAS, PURE_BIOMASS};
use crate::measured_carbon::{CarbonByMass, MeasuredCarbon};
use crate::measured_heat::MeasuredHeat;
use crate::record::{Addition, Co2Ledger, Judged, Reason, ANALYSED_GAS};

/// 250.0 MMBtu/h, in tenths.
const LARGE_UNIT_ABOVE: u32 = 2_500;

/// Flag bits.
const HEAT_MEASURED: u8 = 1;
const CARBON_MEASURED: u8 = 2;
const HEAT_IS_LOW: u8 = 4;

struct FuelRecord {
    month: u16,
    amount: u32,
    measured_heat: Option<MeasuredHeat>,
    measured_carbon: Option<MeasuredCarbon>,
}

pub fn judge(book: &Book, line: &[u8]) -> Judged {
    let record = FuelRecord::read(line).ok_or(Reason::Form)?;
    let unit = book.unit(u16_at(line, 2)).ok_or(Reason::UnitNotListed)?;
    let fuel = book.fuel(u16_at(line, 4)).ok_or(Reason::FuelNotListed)?;
    if !record.in_range(fuel) {
        return Err(Reason::OutOfRange);
    }
    let method = record.method(unit, fuel).ok_or(Reason::NoPermittedMethod)?;
    let heat = record.heat_in_use(fuel).ok_or(Reason::NoHeatInUse)?;
    Ok(record.addition(method, heat, fuel))
}

impl FuelRecord {
    /// Nothing if a flag is unknown, a low value is flagged without heat, or a
    /// byte that must be 0 is not; heat and carbon bytes must be 0 "when their
    /// flag is clear".
    fn read(line: &[u8]) -> Option<FuelRecord> {
        let is_by_mass = line[0] == ANALYSED_GAS;
        let flags = line[1];
        let (named, after_carbon) = match is_by_mass {
            true => (HEAT_MEASURED | HEAT_IS_LOW, 24),
            false => (HEAT_MEASURED | HEAT_IS_LOW | CARBON_MEASURED, 20),
        };
        let heat_flagged = flags & HEAT_MEASURED != 0;
        let low_flagged = flags & HEAT_IS_LOW != 0;
        // Carbon by mass has no flag, for a record of analysed gas always has it.
        let carbon_flagged = is_by_mass || flags & CARBON_MEASURED != 0;
        let sound = flags & !named == 0
            && (heat_flagged || !low_flagged)
            && (heat_flagged || all_zero(&line[12..16]))
            && (carbon_flagged || all_zero(&line[16..20]))
            && all_zero(&line[after_carbon..]);
        let heat_as_flagged = match low_flagged {
            true => MeasuredHeat::Low,
            false => MeasuredHeat::High,
        };
        sound.then(|| FuelRecord {
            month: u16_at(line, 6),
            amount: u32_at(line, 8),
            measured_heat: heat_flagged.then(|| heat_as_flagged(u32_at(line, 12))),
            measured_carbon: carbon_flagged.then(|| carbon(line)),
        })
    }

    fn in_range(&self, fuel: &Fuel) -> bool {
        (1..=12).contains(&self.month)
            && self.amount <= 100_000_000
            && self
                .measured_heat
                .is_none_or(|heat| heat.is_in_range(fuel.class))
            && self
                .measured_carbon
                .is_none_or(|carbon| carbon.is_in_range(fuel))
    }

    /// Document 01, "Choosing the method", line by line.
    fn method(&self, unit: &Unit, fuel: &Fuel) -> Option<u8> {
        let small = unit.rating <= LARGE_UNIT_ABOVE;
        let exempt = [NATURAL_GAS, DISTILLATE_OIL].contains(&fuel.class);
        if unit.monitor != Monitor::None {
            return Some(4);
        }
        if self.measured_carbon.is_some() {
            return Some(3);
        }
        if self.measured_heat.is_some() {
            return (small || exempt).then_some(2);
        }
        (small && fuel.default_heat > 0).then_some(1)
    }

    fn heat_in_use(&self, fuel: &Fuel) -> Option<u32> {
        let default = Some(fuel.default_heat).filter(|&heat| heat > 0);
        self.measured_heat.map(MeasuredHeat::high).or(default)
    }

    fn addition(&self, method: u8, heat: u32, fuel: &Fuel) -> Addition {
        let amount = u64::from(self.amount);
        // At most 10^8 x 200,000 kJ, times at most 200,000: below 2^63.
        let energy = amount * u64::from(heat);
        let co2_ug = match (method, self.measured_carbon) {
            (3, Some(carbon)) => carbon.co2_ug(amount, fuel),
            (1 | 2, _) => energy * u64::from(fuel.co2),
            _ => 0,
        };
        let ledger = match (method, fuel.class) {
            (4, _) => Co2Ledger::None,
            (_, PURE_BIOMASS) => Co2Ledger::Biomass,
            _ => Co2Ledger::Fossil,
        };
        Addition {
            method,
            ledger,
            co2_ug,
            ch4_ng: energy * u64::from(fuel.ch4),
            n2o_ng: energy * u64::from(fuel.n2o),
        }
    }
}

/// Of a record that has some.
fn carbon(line: &[u8]) -> MeasuredCarbon {
    match line[0] {
        ANALYSED_GAS => MeasuredCarbon::ByMass(CarbonByMass::read(line)),
        _ => MeasuredCarbon::PerUnit(u32_at(line, 16)),
    }
}
