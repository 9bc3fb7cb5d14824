//! Rows of Table 12.1.1 of source 004 as printed: a factor, and the "amount
//! of fuel to produce 25,000 MT CO2".
//!
//! Left out, because the printed factor is too coarse to test anything:
//! natural gas per scf, "0.05" (line 64), off by up to a tenth; landfill gas
//! per scf, "0.025" (line 70), off by up to a fiftieth.

use super::units::Amount;

pub struct Row {
    pub line: &'static str,
    pub fuel: &'static str,
    pub factor: &'static str,
    pub amount: &'static str,
    pub heat: u32,
    pub measured_in: Amount,
}

/// Rows of one unit of measure: line, fuel, kJ per unit of the book, factor
/// and amount. The heat is no figure of the source: only its product with the
/// factor counts, so any heat of the right size serves.
pub struct Rows {
    measured_in: Amount,
    rows: &'static str,
}

/// kg CO2 per MMBtu, and MMBtu, of fuels measured in these units in a book.
pub const ENERGY: [Rows; 2] = [
    Rows {
        measured_in: Amount::CubicMetre,
        rows: "65; natural gas; 38000; 53.02; 471,520
               69; landfill gas; 20000; 52.03; 480,503",
    },
    Rows {
        measured_in: Amount::Kilogram,
        rows: "74; petroleum coke; 30000; 102.04; 244,996",
    },
];

/// kg CO2 per unit of measure, and so many of these.
pub const AMOUNTS: [Rows; 2] = [
    Rows {
        measured_in: Amount::Gallon,
        rows: "66; LPG; 25000; 5.79; 4,317,757
               67; distillate; 38000; 10.14; 2,466,011
               68; motor gasoline; 35000; 8.80; 2,841,174
               72; jet fuel; 37000; 9.56; 2,614,682
               73; kerosene; 37000; 9.75; 2,562,972
               76; crude oil; 38000; 10.29; 2,430,348",
    },
    Rows {
        measured_in: Amount::ShortTon,
        rows: "71; coal, other industrial; 25000; 2,082.89; 12,003
               75; petroleum coke; 30000; 2530.70; 9,879",
    },
];

impl Rows {
    pub fn each(&self) -> impl Iterator<Item = Row> + use<'_> {
        self.rows.lines().filter_map(|line| {
            let mut columns = line.split(';').map(str::trim);
            Some(Row {
                line: columns.next()?,
                fuel: columns.next()?,
                heat: columns.next()?.parse().ok()?,
                factor: columns.next()?,
                amount: columns.next()?,
                measured_in: self.measured_in,
            })
        })
    }
}
