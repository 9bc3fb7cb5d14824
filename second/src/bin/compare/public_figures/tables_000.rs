//! Rows of source 000 (WCI requirements, 2009), section WCI.20, as printed.
//!
//! Each row has the lines of the source that it stands on, the fuel, the heat
//! per amount, the factor per heat, and the product of both per amount.
//!
//! Left out because a row contradicts itself:
//! - Table 20-1 (English), wood of 50% moisture (line 1274): 15.47 x 55.68 is
//!   861.37, which is more than rounding away from the printed 861.83;
//! - Table 20-2 (metric), residual fuel oil in forestry, N2O (line 1689):
//!   1.820 g/GJ at 42.5 GJ/kl is 0.077 g/L, printed is 0.064.
//!
//! Left out because the product is printed too coarsely to test anything:
//! - Table 20-2 (metric), diesel, N2O (line 1666): "0.4" g/L;
//! - Table 20-2 (metric), coke oven gas (line 1705): "1.6" kg/m3.
//!
//! Table 20-3 (English) prints factors without a product.

use super::units::{Amount, Heat};

#[derive(Clone, Copy)]
pub enum Gas {
    Fossil,
    Biomass,
    Ch4,
    N2o,
}

/// How a table prints its columns: CO2 in kg, CH4 and N2O in g.
pub struct Table {
    pub name: &'static str,
    pub heat: Heat,
    pub heat_per: Amount,
    pub product_per: Amount,
    pub gas: Gas,
    rows: &'static str,
}

pub struct Row {
    pub lines: &'static str,
    pub fuel: &'static str,
    pub heat: &'static str,
    pub factor: &'static str,
    pub product: &'static str,
}

impl Table {
    pub fn rows(&self) -> impl Iterator<Item = Row> {
        self.rows.lines().filter_map(|line| {
            let mut columns = line.split(';').map(str::trim);
            Some(Row {
                lines: columns.next()?,
                fuel: columns.next()?,
                heat: columns.next()?,
                factor: columns.next()?,
                product: columns.next()?,
            })
        })
    }
}

const COAL: Table = Table {
    name: "Table 20-1 (English)",
    heat: Heat::MmBtu,
    heat_per: Amount::ShortTon,
    product_per: Amount::ShortTon,
    gas: Gas::Fossil,
    rows: "1228; anthracite; 25.09; 103.54; 2,597.94
           1229; bituminous coal; 24.93; 93.40; 2,328.35
           1230; sub-bituminous coal; 17.25; 97.02; 1,673.64
           1231; lignite; 14.21; 96.36; 1,369.32
           1236; coke; 24.80; 102.04; 2,530.65
           1276; peat; 8.83; 106.53; 940.66",
};

const WOOD: Table = Table {
    gas: Gas::Biomass,
    rows: "1273; wood of 12% moisture; 15.38; 93.80; 1,442.62",
    ..COAL
};

const OIL: Table = Table {
    heat_per: Amount::Barrel,
    product_per: Amount::Gallon,
    rows: "1250; distillate fuel oil; 5.825; 73.10; 10.14
           1253; LPG; 3.861; 62.98; 5.79
           1254; propane; 3.824; 63.02; 5.74
           1260; residual fuel oil; 6.287; 78.74; 11.79
           1268; still gas; 6.000; 64.16; 9.17",
    ..COAL
};

const METRIC_LIQUIDS: Table = Table {
    name: "Tables 20-1 and 20-2 (metric)",
    heat: Heat::Gj,
    heat_per: Amount::Kilolitre,
    product_per: Amount::Litre,
    gas: Gas::Fossil,
    rows: "1627 and 1666; diesel; 38.3; 69.53; 2.663
           1636 and 1687; residual fuel oil, industrial; 42.5; 73.51; 3.124
           1640 and 1692; petroleum coke, refinery use; 46.35; 82.55; 3.826",
};

const METRIC_LIQUIDS_CH4: Table = Table {
    gas: Gas::Ch4,
    rows: "1627 and 1666; diesel, CH4; 38.3; 3.473; 0.133",
    ..METRIC_LIQUIDS
};

const METRIC_LIQUIDS_N2O: Table = Table {
    gas: Gas::N2o,
    rows: "1636 and 1687; residual fuel oil, industrial, N2O; 42.5; 1.506; 0.064",
    ..METRIC_LIQUIDS
};

const METRIC_SOLIDS: Table = Table {
    heat_per: Amount::MetricTon,
    product_per: Amount::Kilogram,
    rows: "1648 and 1702; coal coke; 28.83; 86.02; 2.48",
    ..METRIC_LIQUIDS
};

const METRIC_WOOD: Table = Table {
    gas: Gas::Biomass,
    rows: "1649 and 1696; wood waste; 18; 52.8; 0.95",
    ..METRIC_SOLIDS
};

pub const METRIC_GAS: Table = Table {
    name: "Tables 20-1 and 20-3 (metric)",
    heat_per: Amount::CubicMetre,
    product_per: Amount::CubicMetre,
    rows: "1652 and 1718; natural gas, Quebec; 0.03832; 49.01; 1.878
           1652 and 1719; natural gas, Ontario; 0.03832; 49.03; 1.879
           1652 and 1721; natural gas, British Columbia; 0.03832; 50.00; 1.916",
    ..METRIC_LIQUIDS
};

pub const METRIC_GAS_CH4: Table = Table {
    name: "Tables 20-1 and 20-4 (metric)",
    gas: Gas::Ch4,
    rows: "1652 and 1728; natural gas, electric utilities, CH4; 0.03832; 12.79; 0.49",
    ..METRIC_GAS
};

pub const METRIC_GAS_N2O: Table = Table {
    gas: Gas::N2o,
    rows: "1652 and 1728; natural gas, electric utilities, N2O; 0.03832; 1.279; 0.049",
    ..METRIC_GAS_CH4
};

pub const TABLES: [Table; 11] = [
    COAL,
    WOOD,
    OIL,
    METRIC_LIQUIDS,
    METRIC_LIQUIDS_CH4,
    METRIC_LIQUIDS_N2O,
    METRIC_SOLIDS,
    METRIC_WOOD,
    METRIC_GAS,
    METRIC_GAS_CH4,
    METRIC_GAS_N2O,
];

/// Rows whose factor is the carbon, kg C per MMBtu, and whose product is kg
/// CO2 per MMBtu. They show carbon becoming CO2 by 3.664; with 44/12 the CO2
/// would lie outside the tolerance.
pub const CARBON: Table = Table {
    name: "Table 20-1 (English), carbon",
    rows: "1228; anthracite; 25.09; 28.26; 103.54
           1229; bituminous coal; 24.93; 25.49; 93.40
           1230; sub-bituminous coal; 17.25; 26.48; 97.02
           1231; lignite; 14.21; 26.30; 96.36",
    ..COAL
};
