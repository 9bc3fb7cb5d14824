//! What a fuel line says, and the rules that make it sound: docs/RULES.md, "The book".

use std::ops::RangeInclusive;

const HEATS: RangeInclusive<u32> = 0..=200_000;
const CO2_FACTORS: RangeInclusive<u32> = 1..=200_000;
const OTHER_FACTORS: RangeInclusive<u32> = 0..=200_000;
const MOLAR_VOLUMES: RangeInclusive<u32> = 20_000..=27_000;

pub struct Fuel {
    pub number: u16,
    pub kind: Kind,
    pub class: Class,
    /// In kJ per unit of fuel; 0 stands for none.
    pub heat: u32,
    pub co2: u32,
    pub ch4: u32,
    pub n2o: u32,
    /// In litres per kmol; 0 stands for none.
    pub molar_volume: u32,
}

#[derive(Clone, Copy, PartialEq)]
pub enum Kind {
    Solid = 1,
    Liquid = 2,
    Gas = 3,
}

#[derive(Clone, Copy, PartialEq)]
pub enum Class {
    Other = 0,
    NaturalGas = 1,
    DistillateOil = 2,
    PureBiomass = 3,
}

impl Kind {
    pub const ALL: [Kind; 3] = [Kind::Solid, Kind::Liquid, Kind::Gas];

    pub fn word(self) -> &'static str {
        match self {
            Kind::Solid => "solid",
            Kind::Liquid => "liquid",
            Kind::Gas => "gas",
        }
    }
}

impl Class {
    pub const ALL: [Class; 4] = [
        Class::Other,
        Class::NaturalGas,
        Class::DistillateOil,
        Class::PureBiomass,
    ];

    pub fn word(self) -> &'static str {
        match self {
            Class::Other => "other",
            Class::NaturalGas => "natural-gas",
            Class::DistillateOil => "distillate-oil",
            Class::PureBiomass => "pure-biomass",
        }
    }

    fn only_kind(self) -> Option<Kind> {
        match self {
            Class::Other => None,
            Class::NaturalGas => Some(Kind::Gas),
            Class::DistillateOil => Some(Kind::Liquid),
            Class::PureBiomass => Some(Kind::Solid),
        }
    }
}

impl Fuel {
    pub fn check(&self) -> Result<(), String> {
        if self.class.only_kind().is_some_and(|only| only != self.kind) {
            return Err(format!(
                "fuel {} can't be {}, since it is {}",
                self.number,
                self.class.word(),
                self.kind.word()
            ));
        }
        self.check_value("heat", self.heat, HEATS)?;
        self.check_value("co2", self.co2, CO2_FACTORS)?;
        self.check_value("ch4", self.ch4, OTHER_FACTORS)?;
        self.check_value("n2o", self.n2o, OTHER_FACTORS)?;
        if self.molar_volume == 0 {
            return Ok(());
        }
        self.check_value("molar-volume", self.molar_volume, MOLAR_VOLUMES)
    }

    fn check_value(
        &self,
        name: &str,
        value: u32,
        range: RangeInclusive<u32>,
    ) -> Result<(), String> {
        if range.contains(&value) {
            return Ok(());
        }
        let (number, (lowest, highest)) = (self.number, range.into_inner());
        Err(format!(
            "fuel {number} has {name} {value}; its {name} is from {lowest} to {highest}"
        ))
    }
}
