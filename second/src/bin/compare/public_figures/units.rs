//! The sources' units of measure in the units of a book.

use super::ratio::{printed, Ratio};

/// A unit of heat; factors are printed per such a unit.
#[derive(Clone, Copy)]
pub enum Heat {
    /// A million Btu of the International Table, 1.05505585262 kJ each.
    MmBtu,
    Gj,
}

/// A unit of amount of a fuel.
#[derive(Clone, Copy)]
pub enum Amount {
    ShortTon,
    MetricTon,
    Kilogram,
    Gallon,
    Barrel,
    Kilolitre,
    Litre,
    /// Standard cubic foot.
    Scf,
    CubicMetre,
}

impl Heat {
    pub fn kilojoules(self) -> Ratio {
        match self {
            Heat::MmBtu => printed("1,055,055.85262").value,
            Heat::Gj => Ratio::whole(1_000_000),
        }
    }

    /// kg per unit of heat as mg/MJ; the same number turns g into µg/MJ.
    pub fn factor(self, per_heat: Ratio) -> Ratio {
        let megajoules = self.kilojoules().per(Ratio::whole(1_000));
        per_heat.times(Ratio::whole(1_000_000)).per(megajoules)
    }
}

impl Amount {
    /// In kilograms, litres or standard cubic metres.
    pub fn in_book(self) -> Ratio {
        match self {
            Amount::ShortTon => printed("907.18474").value,
            Amount::MetricTon | Amount::Kilolitre => Ratio::whole(1_000),
            Amount::Kilogram | Amount::Litre | Amount::CubicMetre => Ratio::whole(1),
            Amount::Gallon => printed("3.785411784").value,
            Amount::Barrel => printed("158.987294928").value,
            Amount::Scf => printed("0.028316846592").value,
        }
    }

    /// The kind of fuel that is measured so, as a fuel line has it.
    pub fn kind(self) -> u8 {
        match self {
            Amount::ShortTon | Amount::MetricTon | Amount::Kilogram => 1,
            Amount::Gallon | Amount::Barrel | Amount::Kilolitre | Amount::Litre => 2,
            Amount::Scf | Amount::CubicMetre => 3,
        }
    }

    /// A large round number of these that one record can hold.
    pub fn plenty(self) -> u128 {
        match self {
            Amount::ShortTon | Amount::MetricTon | Amount::Kilolitre => 100_000,
            Amount::Barrel => 500_000,
            Amount::Gallon => 20_000_000,
            Amount::Kilogram | Amount::Litre | Amount::CubicMetre | Amount::Scf => 100_000_000,
        }
    }
}
