//! Figures of source 004 (California ARB guidance, chapter 12). Its
//! thresholds are not the requirements', so decisions are not held against it.

use super::ratio::{printed, Printed, Ratio};
use super::table_004::{Row, Rows, AMOUNTS, ENERGY};
use super::units::{Amount, Heat};
use super::{one_record, within_rounding, PublicFigure, TRACE, YEAR};
use crate::draft::{unit, Burnt, Draft, FuelLine, Line, FIRST_SET};
use crate::expectation::Field;

fn kilograms(tonnes: Ratio) -> Ratio {
    tonnes.times(Ratio::whole(1_000))
}

pub fn figures() -> Vec<PublicFigure> {
    let mut figures = example_1();
    figures.extend(example_2());
    figures.push(two_kinds_of_co2());
    let energy = ENERGY.iter().flat_map(Rows::each);
    figures.extend(energy.map(|row| energy_figure(&row)));
    let amounts = AMOUNTS.iter().flat_map(Rows::each);
    figures.extend(amounts.map(|row| amount_figure(&row)));
    figures
}

/// Btu per scf as whole kJ per standard cubic metre.
fn gas_heat(btu_per_scf: u128) -> u128 {
    let per_scf = Heat::MmBtu
        .kilojoules()
        .times(Ratio::new(btu_per_scf, 1_000_000));
    per_scf.per(Amount::Scf.in_book()).nearest()
}

/// So many units of fuel of this heat hold this many MMBtu. The heat is the
/// book's rounded one, so that its rounding cancels.
fn amount_of_energy(mmbtu: Printed, heat: u128) -> u128 {
    let kilojoules = mmbtu.value.times(Heat::MmBtu.kilojoules());
    kilojoules.per(Ratio::whole(heat)).nearest()
}

/// Lines 47 to 54: natural gas of 1,060 Btu/scf at 53.42 kg CO2/MMBtu.
fn example_1() -> Vec<PublicFigure> {
    let heat = gas_heat(1_060);
    let co2 = Heat::MmBtu.factor(printed("53.42").value).nearest();
    let gas = FuelLine {
        class: 1,
        heat: heat as u32,
        co2: co2 as u32,
        ..TRACE
    };
    let figure = |source: &str, mmbtu: &str, tonnes: &str| {
        let amount = amount_of_energy(printed(mmbtu), heat);
        let tonnes = printed(tonnes);
        let digits = [tonnes.digits, amount, co2];
        let kg = kilograms(tonnes.value);
        PublicFigure {
            source: format!("004 {source}"),
            book: one_record(gas, amount, None),
            expected: vec![within_rounding(Field::FossilKg, kg, &digits)],
        }
    };
    vec![
        figure("line 47, Example 1, boilers", "411,830", "22,000"),
        figure("line 50, Example 1, cogeneration", "93,597", "5,000"),
        // 411,830 + 93,597 MMBtu in one record.
        figure("line 54, Example 1, both", "505,427", "27,000"),
    ]
}

/// Lines 212 to 244: 500 MMscf of 1,027 Btu/scf, 0.1 g N2O and 0.9 g CH4 per
/// MMBtu, give 0.05 t and 0.46 t.
fn example_2() -> Vec<PublicFigure> {
    let heat = gas_heat(1_027);
    let amount = Ratio::whole(500_000_000)
        .times(Amount::Scf.in_book())
        .nearest();
    let n2o = Heat::MmBtu.factor(printed("0.1").value).nearest();
    let ch4 = Heat::MmBtu.factor(printed("0.9").value).nearest();
    let gas = FuelLine {
        heat: heat as u32,
        ch4: ch4 as u32,
        n2o: n2o as u32,
        ..TRACE
    };
    let figure = |source: &str, field, tonnes: &str, factor| {
        let tonnes = printed(tonnes);
        let digits = [tonnes.digits, amount, heat, factor];
        let kg = kilograms(tonnes.value);
        PublicFigure {
            source: format!("004 {source}"),
            book: one_record(gas, amount, None),
            expected: vec![within_rounding(field, kg, &digits)],
        }
    };
    vec![
        figure("line 242, Example 2, N2O", Field::N2oKg, "0.05", n2o),
        figure("line 244, Example 2, CH4", Field::Ch4Kg, "0.46", ch4),
    ]
}

/// Lines 142 to 148: natural gas 20,000 t, fuel oil 5,000 t and pure biomass
/// 10,000 t are reported as 25,000 t fossil and 10,000 t biomass. The source
/// gives no amounts; these make its tonnes exactly.
fn two_kinds_of_co2() -> PublicFigure {
    let gas = burnt_fuel(1, (3, 1), [40_000, 50_000], 10_000_000); // 2 kg per m3
    let oil = burnt_fuel(2, (2, 2), [40_000, 62_500], 2_000_000); // 2.5 kg per litre
    let wood = burnt_fuel(3, (1, 3), [20_000, 100_000], 5_000_000); // 2 kg per kg
    let draft = Draft {
        records: vec![gas.0, oil.0, wood.0],
        units: vec![unit(1, false, 2_500)],
        fuels: vec![gas.1, oil.1, wood.1],
        year: YEAR,
        warming_set: FIRST_SET,
    };
    PublicFigure {
        source: "004 lines 144 and 145, fossil and biomass CO2".into(),
        book: draft.bytes(),
        expected: vec![
            Field::FossilKg.is(25_000_000),
            Field::BiomassKg.is(10_000_000),
        ],
    }
}

/// A fuel record and its fuel line: kind and class, kJ per unit and mg/MJ.
fn burnt_fuel(
    number: u16,
    (kind, class): (u8, u8),
    [heat, co2]: [u32; 2],
    amount: u32,
) -> (Line, Line) {
    let record = Burnt {
        unit: 1,
        fuel: number,
        month: 12,
        amount,
        heat: None,
        heat_is_low: false,
        carbon: None,
    };
    let fuel = FuelLine {
        number,
        kind,
        class,
        heat,
        co2,
        ..TRACE
    };
    (record.line(), fuel.line())
}

fn energy_figure(row: &Row) -> PublicFigure {
    let factor = printed(row.factor);
    let amount = amount_of_energy(printed(row.amount), u128::from(row.heat));
    let co2 = Heat::MmBtu.factor(factor.value).nearest();
    table_figure(row, amount, co2)
}

/// kg per gallon or ton become mg per litre or kilogram, and those per MJ.
fn amount_figure(row: &Row) -> PublicFigure {
    let amount = printed(row.amount).value.times(row.measured_in.in_book());
    let kg_per_unit = printed(row.factor).value.per(row.measured_in.in_book());
    let mg_per_unit = kg_per_unit.times(Ratio::whole(1_000_000));
    let megajoules = Ratio::new(u128::from(row.heat), 1_000);
    let co2 = mg_per_unit.per(megajoules).nearest();
    table_figure(row, amount.nearest(), co2)
}

/// "Amount of fuel to produce 25,000 MT CO2": the tonnes are exact, the
/// printed amount and factor are rounded.
fn table_figure(row: &Row, amount: u128, co2: u128) -> PublicFigure {
    let (kg, rounded) = (Ratio::whole(25_000_000), [row.factor, row.amount]);
    let digits = rounded.map(|text| printed(text).digits);
    let digits = [&digits[..], &[amount, co2]].concat();
    let fuel = FuelLine {
        kind: row.measured_in.kind(),
        heat: row.heat,
        co2: co2 as u32,
        ..TRACE
    };
    PublicFigure {
        source: format!("004 line {}, Table 12.1.1, {}", row.line, row.fuel),
        book: one_record(fuel, amount, None),
        expected: vec![within_rounding(Field::FossilKg, kg, &digits)],
    }
}
