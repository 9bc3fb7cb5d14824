//! The two sets of warming values, of which the trailer names one.

/// How many times its own mass of CO2 a gas counts for in CO2e.
#[derive(Clone, Copy, Debug, PartialEq, Eq)]
pub struct Warming {
    pub ch4: u128,
    pub n2o: u128,
}

impl Warming {
    pub const FIRST: Warming = Warming { ch4: 21, n2o: 310 };
    /// Part 98's Table A-1 as amended in 2013.
    pub const SECOND: Warming = Warming { ch4: 25, n2o: 298 };

    /// The set that byte 20 of a trailer names.
    pub fn named(byte: u8) -> Option<Warming> {
        match byte {
            0 => Some(Warming::FIRST),
            1 => Some(Warming::SECOND),
            _ => None,
        }
    }
}
