//! Natural gas of source 000 whose low heat value alone is known: Eq. 20-11
//! gives the high one, and Eq. 20-2 the CO2 by it.
//!
//! The source prints no low value. The one here is the high value of Table 20-1
//! divided by 1.11, to the nearest kJ, so that what Eq. 20-11 makes of it must be
//! what the table prints, to the table's own rounding.

use super::ratio::{printed, Ratio};
use super::source_000::{book_heat, source, Product};
use super::tables_000::{Row, Table, METRIC_GAS, METRIC_GAS_CH4, METRIC_GAS_N2O};
use super::units::{Amount, Heat};
use super::{book_of, within_rounding, PublicFigure, TRACE, UNMEASURED};
use crate::draft::{Burnt, FuelLine, NATURAL_GAS};
use crate::expectation::Field;

/// Line 1652, GJ per m3.
const TABLE_HEAT: &str = "0.03832";
/// Line 1591: "For natural gas, a CF of 1.11 shall be used."
const FACTOR: &str = "1.11";

pub fn figures() -> Vec<PublicFigure> {
    let mut figures = vec![high_from_low()];
    for table in [METRIC_GAS, METRIC_GAS_CH4, METRIC_GAS_N2O] {
        for row in table.rows() {
            figures.extend([by_low_heat(&table, &row), by_table_heat(&table, &row)]);
        }
    }
    figures
}

fn low_heat() -> u128 {
    let high = printed(TABLE_HEAT).value.times(Heat::Gj.kilojoules());
    high.per(printed(FACTOR).value).nearest()
}

fn measured(heat: u128, amount: u128) -> Burnt {
    Burnt {
        amount: amount as u32,
        heat: Some(heat as u32),
        ..UNMEASURED
    }
}

fn measured_low(amount: u128) -> Burnt {
    Burnt {
        heat_is_low: true,
        ..measured(low_heat(), amount)
    }
}

/// At a kilogram of CO2 per GJ a report's CO2 is the heat itself, in GJ.
fn high_from_low() -> PublicFigure {
    let gas = FuelLine {
        class: NATURAL_GAS,
        co2: Heat::Gj.factor(Ratio::whole(1)).nearest() as u32,
        ..TRACE
    };
    let amount = Amount::CubicMetre.plenty();
    let table_heat = printed(TABLE_HEAT);
    let kg = table_heat.value.times(Ratio::whole(amount));
    PublicFigure {
        source: "000 lines 1583 and 1652, Eq. 20-11 and Table 20-1 (metric), natural gas".into(),
        book: book_of(gas, measured_low(amount)),
        expected: vec![within_rounding(Field::FossilKg, kg, &[table_heat.digits])],
    }
}

/// The low value and its 1.11-fold are rounded besides what the row rounds.
fn by_low_heat(table: &Table, row: &Row) -> PublicFigure {
    let product = Product::of(table, row);
    let table_heat = book_heat(table.heat, table.heat_per, TABLE_HEAT);
    PublicFigure {
        source: format!("{}, by Eq. 20-11 from a low value", source(table, row)),
        book: book_of(gas(&product), measured_low(product.amount)),
        expected: vec![product.expected(&[low_heat(), table_heat])],
    }
}

fn by_table_heat(table: &Table, row: &Row) -> PublicFigure {
    let product = Product::of(table, row);
    PublicFigure {
        source: format!("{}, as measured heat", source(table, row)),
        book: book_of(gas(&product), measured(product.heat, product.amount)),
        expected: vec![product.expected(&[])],
    }
}

/// Without default heat, so that only what is measured counts.
fn gas(product: &Product) -> FuelLine {
    FuelLine {
        class: NATURAL_GAS,
        heat: 0,
        ..product.fuel
    }
}

#[cfg(test)]
mod tests {
    use super::*;

    /// 34,523 x 1.11 is 38,320.53, which the table would print as 0.03832 GJ.
    #[test]
    fn the_low_value_stands_for_the_heat_of_the_table() {
        assert_eq!(low_heat(), 34_523);
        let high = Ratio::whole(low_heat()).times(printed(FACTOR).value);
        assert_eq!(high, Ratio::new(3_832_053, 100));
        assert_eq!(
            high.per(Ratio::whole(10)).nearest(),
            printed(TABLE_HEAT).digits
        );
    }
}
