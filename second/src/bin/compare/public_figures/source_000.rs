//! Figures of source 000 (WCI requirements, 2009) as books: heat per amount
//! times a factor per heat must be what the source prints per amount.

use super::ratio::{printed, Ratio};
use super::tables_000::{Gas, Row, Table, CARBON, TABLES};
use super::units::{Amount, Heat};
use super::{one_record, within_rounding, PublicFigure, TRACE};
use crate::draft::FuelLine;
use crate::exact::{self, Totals};
use crate::expectation::{Expectation, Field};

pub fn figures() -> Vec<PublicFigure> {
    let mut figures = Vec::new();
    for table in TABLES {
        figures.extend(table.rows().map(|row| product_figure(&table, &row)));
    }
    figures.extend(CARBON.rows().map(|row| carbon_figure(&CARBON, &row)));
    figures.extend(warming_potentials());
    figures.push(landfill_gas());
    figures
}

pub fn source(table: &Table, row: &Row) -> String {
    format!("000 line {}, {}, {}", row.lines, table.name, row.fuel)
}

/// Heat of a row in whole kJ per kilogram, litre or cubic metre.
pub fn book_heat(heat: Heat, per: Amount, text: &str) -> u128 {
    let kilojoules = printed(text).value.times(heat.kilojoules());
    kilojoules.per(per.in_book()).nearest()
}

fn product_figure(table: &Table, row: &Row) -> PublicFigure {
    let product = Product::of(table, row);
    PublicFigure {
        source: source(table, row),
        book: one_record(product.fuel, product.amount, None),
        expected: vec![product.expected(&[])],
    }
}

/// A row in the numbers of a book, and the sum that the source prints for it.
pub struct Product {
    pub fuel: FuelLine,
    pub heat: u128,
    pub amount: u128,
    field: Field,
    kg: Ratio,
    rounded: Vec<u128>,
}

impl Product {
    pub fn of(table: &Table, row: &Row) -> Product {
        let heat = book_heat(table.heat, table.heat_per, row.heat);
        let factor = table.heat.factor(printed(row.factor).value).nearest();
        let count = Ratio::whole(table.product_per.plenty());
        let amount = count.times(table.product_per.in_book()).nearest();
        let sum = printed(row.product).value.times(count);
        let grams = Ratio::whole(1_000);
        let (field, kg) = match table.gas {
            Gas::Fossil => (Field::FossilKg, sum),
            Gas::Biomass => (Field::BiomassKg, sum),
            Gas::Ch4 => (Field::Ch4Kg, sum.per(grams)),
            Gas::N2o => (Field::N2oKg, sum.per(grams)),
        };
        let digits = [row.heat, row.factor, row.product].map(|text| printed(text).digits);
        Product {
            fuel: fuel(table, heat as u32, factor as u32),
            heat,
            amount,
            field,
            kg,
            rounded: [&digits[..], &[amount, heat, factor]].concat(),
        }
    }

    /// The sum, where these digits are rounded besides the row's.
    pub fn expected(&self, besides: &[u128]) -> Expectation {
        let digits = [&self.rounded, besides].concat();
        within_rounding(self.field, self.kg, &digits)
    }
}

fn fuel(table: &Table, heat: u32, factor: u32) -> FuelLine {
    let kind = table.product_per.kind();
    let mut fuel = FuelLine {
        kind,
        heat,
        ..TRACE
    };
    match table.gas {
        Gas::Fossil => fuel.co2 = factor,
        Gas::Biomass => (fuel.class, fuel.co2) = (3, factor),
        Gas::Ch4 => fuel.ch4 = factor,
        Gas::N2o => fuel.n2o = factor,
    }
    fuel
}

/// kg C per MMBtu times MMBtu per short ton, in mg per kg of coal: method 3.
fn carbon_figure(table: &Table, row: &Row) -> PublicFigure {
    let heat_per_ton = printed(row.heat).value;
    let kg_per_ton = printed(row.factor).value.times(heat_per_ton);
    let mg_per_ton = kg_per_ton.times(Ratio::whole(1_000_000));
    let carbon = mg_per_ton.per(table.heat_per.in_book()).nearest();
    let tons = Ratio::whole(table.heat_per.plenty());
    let amount = tons.times(table.heat_per.in_book()).nearest();
    let kg = printed(row.product).value.times(heat_per_ton).times(tons);
    // The heat stands on both sides, so its rounding cancels.
    let rounded = [row.factor, row.product].map(|text| printed(text).digits);
    let digits = [&rounded[..], &[amount, carbon]].concat();
    let coal = FuelLine {
        kind: table.heat_per.kind(),
        heat: book_heat(table.heat, table.heat_per, row.heat) as u32,
        ..TRACE
    };
    PublicFigure {
        source: source(table, row),
        book: one_record(coal, amount, Some(carbon)),
        expected: vec![within_rounding(Field::FossilKg, kg, &digits)],
    }
}

/// Table WCI.10-1: one tonne of CH4 is 21 t of CO2e, one of N2O 310 t.
fn warming_potentials() -> [PublicFigure; 2] {
    const TONNE_NG: u64 = 1_000_000_000_000_000;
    let only_ch4 = Totals {
        ch4_ng: TONNE_NG,
        ..Totals::default()
    };
    let only_n2o = Totals {
        n2o_ng: TONNE_NG,
        ..Totals::default()
    };
    let rows = [
        ("316, Table WCI.10-1, methane", only_ch4, 21_000),
        ("317, Table WCI.10-1, nitrous oxide", only_n2o, 310_000),
    ];
    rows.map(|(row, totals, co2e_kg)| PublicFigure {
        source: format!("000 line {row}"),
        book: exact::book(totals).bytes(),
        expected: vec![Field::Co2eKg.is(co2e_kg)],
    })
}

/// Table 20-2 (metric) prints 833 kg/GJ, far over what the requirements let a fuel
/// line say (200,000 mg/MJ). Document 01 decides: the book is refused with 23.
fn landfill_gas() -> PublicFigure {
    let co2 = Heat::Gj.factor(printed("833").value).nearest();
    let fuel = FuelLine {
        heat: book_heat(Heat::Gj, Amount::CubicMetre, "0.0359") as u32,
        co2: co2 as u32,
        ..TRACE
    };
    PublicFigure {
        source: "000 line 1695, Table 20-2 (metric), landfill gas: refused by the requirements"
            .into(),
        book: one_record(fuel, 1_000, None),
        expected: vec![Field::Number.is(23)],
    }
}
