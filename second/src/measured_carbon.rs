//! Measured carbon, which a laboratory reports per unit of fuel or, of a gas, by mass
//! with the gas's molecular weight.

use crate::bytes::u32_at;
use crate::lines::{Fuel, GAS};
use crate::quotient::Quotient;

/// Carbon becomes CO2 by 3.664; with carbon in mg the thousandfold gives µg.
pub const UG_CO2_PER_MG_CARBON: u64 = 3_664;

#[derive(Clone, Copy, Debug)]
pub enum MeasuredCarbon {
    /// In mg per unit of fuel.
    PerUnit(u32),
    ByMass(CarbonByMass),
}

/// Carbon in mg per kg of gas, and the gas's molecular weight in g per kmol.
#[derive(Clone, Copy, Debug)]
pub struct CarbonByMass {
    pub carbon: u32,
    pub weight: u32,
}

impl MeasuredCarbon {
    /// Whether a record of this fuel may have it.
    pub fn is_in_range(self, fuel: &Fuel) -> bool {
        match self {
            MeasuredCarbon::PerUnit(carbon) if fuel.kind == GAS => carbon <= 4_000_000,
            MeasuredCarbon::PerUnit(carbon) => carbon <= 1_000_000,
            MeasuredCarbon::ByMass(measured) => measured.is_in_range(fuel),
        }
    }

    /// Of an amount of a fuel whose record may have it, in µg.
    pub fn co2_ug(self, amount: u64, fuel: &Fuel) -> u64 {
        match self {
            MeasuredCarbon::PerUnit(carbon) => amount * u64::from(carbon) * UG_CO2_PER_MG_CARBON,
            MeasuredCarbon::ByMass(measured) => measured.co2_ug(amount, fuel.mvc).nearest(),
        }
    }
}

impl CarbonByMass {
    /// That of a record of analysed gas.
    pub fn read(line: &[u8]) -> CarbonByMass {
        CarbonByMass {
            carbon: u32_at(line, 16),
            weight: u32_at(line, 20),
        }
    }

    /// By mass there is carbon of a gas alone, and only where it is known how many
    /// litres a kmol of it takes.
    fn is_in_range(self, fuel: &Fuel) -> bool {
        fuel.kind == GAS
            && fuel.mvc > 0
            && self.carbon <= 1_000_000
            && (1..=200_000).contains(&self.weight)
    }

    /// 000 Eq. 20-7, where 1,000 litres are a m3 and 1,000 g a kg. The dividend is at
    /// most 10^8 x 10^6 x 200,000 x 3,664, some 2^76; divided by 20,000 or more, it is
    /// below 2^62.
    pub fn co2_ug(self, amount: u64, mvc: u32) -> Quotient {
        let [carbon, weight, mvc] = [self.carbon, self.weight, mvc].map(u128::from);
        let factor = u128::from(UG_CO2_PER_MG_CARBON);
        Quotient::of(u128::from(amount) * carbon * weight * factor, mvc)
    }
}

#[cfg(test)]
mod tests {
    use super::*;
    use crate::lines::{LIQUID, SOLID};

    fn by_mass(carbon: u32, weight: u32) -> CarbonByMass {
        CarbonByMass { carbon, weight }
    }

    /// 21,984 is 6 x 3,664, so the CO2 is a sixth of the product of the others.
    #[test]
    fn a_microgram_goes_to_the_nearest_half_to_even() {
        let worked = [
            (0, 0),
            (1, 0),
            (3, 0), // A half.
            (4, 1),
            (8, 1),
            (9, 2), // One and a half.
            (10, 2),
            (14, 2),
            (15, 2), // Two and a half.
            (16, 3),
            (21, 4), // Three and a half.
        ];
        for (product, ug) in worked {
            let ways = [
                by_mass(1, 1).co2_ug(product, 21_984),
                by_mass(product as u32, 1).co2_ug(1, 21_984),
                by_mass(1, product as u32).co2_ug(1, 21_984),
            ];
            assert_eq!(ways.map(Quotient::nearest), [ug; 3], "{product}");
        }
    }

    #[test]
    fn products_past_64_bits_are_exact() {
        let largest = by_mass(1_000_000, 200_000);
        let of_largest = |mvc| largest.co2_ug(100_000_000, mvc).nearest();
        assert_eq!(of_largest(20_000), 3_664_000_000_000_000_000);
        // 73,280,000,000,000,000,000,000 by 20,001 leaves 17,978, by 27,000 it leaves 2,000.
        assert_eq!(of_largest(20_001), 3_663_816_809_159_542_023);
        assert_eq!(of_largest(27_000), 2_714_074_074_074_074_074);
    }

    #[test]
    fn only_a_gas_with_a_molar_volume_has_carbon_by_mass() {
        let measured = [
            (by_mass(0, 1), true),
            (by_mass(1_000_000, 200_000), true),
            (by_mass(1_000_001, 200_000), false),
            (by_mass(u32::MAX, 1), false),
            (by_mass(0, 0), false),
            (by_mass(1_000_000, 200_001), false),
            (by_mass(0, u32::MAX), false),
        ];
        for kind in [SOLID, LIQUID, GAS] {
            for mvc in [0, 20_000, 27_000] {
                let fuel = Fuel {
                    number: 1,
                    kind,
                    class: 0,
                    default_heat: 0,
                    co2: 1,
                    ch4: 0,
                    n2o: 0,
                    mvc,
                };
                for (measured, is_right) in measured {
                    let told = MeasuredCarbon::ByMass(measured).is_in_range(&fuel);
                    let expected = is_right && kind == GAS && mvc > 0;
                    assert_eq!(told, expected, "kind {kind}, {mvc}, {measured:?}");
                }
            }
        }
    }
}
