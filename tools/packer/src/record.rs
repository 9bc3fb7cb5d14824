//! What a record says, sound or not: judging it is the library's work.

use crate::book::LINE;

pub enum Record {
    Delivery(Delivery),
    Hour(Hour),
    Anodes(Anodes),
    /// A record that the words of the others can't say.
    Raw([u8; LINE]),
}

pub struct Delivery {
    pub unit: u16,
    pub fuel: u16,
    pub month: u16,
    pub amount: u32,
    pub heat: Option<Heat>,
    pub carbon: Option<Carbon>,
}

/// A measured heat in kJ per unit of fuel, as the supplier quotes it.
#[derive(Clone, Copy)]
pub enum Heat {
    High(u32),
    /// Without the heat of the water vapour. That of natural gas counts 1.11 times.
    Low(u32),
}

/// Measured carbon, as the laboratory tells it. By it a delivery is of the one kind or the other.
#[derive(Clone, Copy)]
pub enum Carbon {
    /// In mg per unit of fuel.
    PerUnit(u32),
    /// That of an analysed gas, in mg per kg, with its molecular weight in g per kmol.
    ByWeight { per_kg: u32, molecular_weight: u32 },
}

pub struct Hour {
    pub unit: u16,
    pub hour: u16,
    /// The readings are kept as bits: a NaN that travels as a float may lose its payload.
    pub percent: u32,
    pub flow: u32,
    /// Of the stack gas, in tenths of a percent. On a unit that isn't dry it must be 0.
    pub moisture: u16,
}

/// What a smelter's prebaked anodes lost in a month.
pub struct Anodes {
    pub unit: u16,
    pub month: u16,
    /// In kg.
    pub metal: u32,
    /// In g per kg of metal.
    pub net_use: u32,
    /// This and the others that follow in hundredths of a percent of the anodes.
    pub sulphur: u16,
    pub ash: u16,
    pub other: u16,
}

impl Record {
    pub fn unit(&self) -> Option<u16> {
        match self {
            Record::Delivery(delivery) => Some(delivery.unit),
            Record::Hour(hour) => Some(hour.unit),
            Record::Anodes(anodes) => Some(anodes.unit),
            Record::Raw(_) => None,
        }
    }

    pub fn fuel(&self) -> Option<u16> {
        match self {
            Record::Delivery(delivery) => Some(delivery.fuel),
            Record::Hour(_) | Record::Anodes(_) | Record::Raw(_) => None,
        }
    }
}
