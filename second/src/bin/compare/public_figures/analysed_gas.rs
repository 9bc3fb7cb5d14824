//! Eq. 20-7 of source 000 for gaseous fuels, which its Eq. 30-1 repeats for refinery gas,
//! source 001 prints alike (line 321), and sources 002 (line 411) and 003 (line 3242,
//! Eq.) have with 44/12: 3.664 x Fuel x CC x MW / MVC.
//!
//! Of gases the sources print no carbon content, but methane's molecular weight and
//! what it gives of CO2 (000 lines 3256 and 3260), and so its carbon: 2.743 / 3.664.

use super::ratio::{printed, Ratio};
use super::units::Amount;
use super::{one_record, within_rounding, PublicFigure, TRACE, YEAR};
use crate::draft::{unit, Analysed, Draft, FuelLine, FIRST_SET};
use crate::expectation::Field;

/// Line 1461.
const CARBON_TO_CO2: &str = "3.664";
/// Line 3256, kg per kg-mole.
const METHANE_WEIGHT: &str = "16.04";
/// Line 3260, kg of CO2 per kg of CH4.
const METHANE_TO_CO2: &str = "2.743";

/// A molar volume as 000 prints it, and where.
struct Volume {
    line: &'static str,
    conditions: &'static str,
    text: &'static str,
    per_kmol: Amount,
}

const fn volume(
    line: &'static str,
    conditions: &'static str,
    text: &'static str,
    per_kmol: Amount,
) -> Volume {
    Volume {
        line,
        conditions,
        text,
        per_kmol,
    }
}

const AT_20_C: &str = "20 °C";
const AT_60_F: &str = "60 °F";

const IN_FEET: [Volume; 2] = [
    volume("1068", AT_20_C, "849.5", Amount::Scf),
    volume("1068", AT_60_F, "836", Amount::Scf),
];

/// In the order of those in feet, each twice.
const IN_METRES: [[Volume; 2]; 2] = [
    [
        volume("1460", AT_20_C, "24.1", Amount::CubicMetre),
        volume("1829", AT_20_C, "24.06", Amount::CubicMetre),
    ],
    [
        volume("1460", AT_60_F, "23.7", Amount::CubicMetre),
        volume("1829", AT_60_F, "23.67", Amount::CubicMetre),
    ],
];

impl Volume {
    fn cubic_metres(&self) -> Ratio {
        printed(self.text).value.times(self.per_kmol.in_book())
    }

    /// As a fuel line has it, in whole litres.
    fn litres(&self) -> u128 {
        self.cubic_metres().times(Ratio::whole(1_000)).nearest()
    }
}

/// Of methane, in mg per kg.
fn carbon() -> u128 {
    let part = printed(METHANE_TO_CO2)
        .value
        .per(printed(CARBON_TO_CO2).value);
    part.times(Ratio::whole(1_000_000)).nearest()
}

/// What so many m3 of methane give by a molar volume in m3, in kg.
fn co2_of_methane(amount: u128, volume: Ratio) -> Ratio {
    let methane = Ratio::whole(amount)
        .times(printed(METHANE_WEIGHT).value)
        .per(volume);
    methane.times(printed(METHANE_TO_CO2).value)
}

fn book(amount: u128, carbon: u128, litres: u128) -> Vec<u8> {
    let weight = printed(METHANE_WEIGHT).value.times(Ratio::whole(1_000));
    let gas = Analysed {
        unit: 1,
        fuel: TRACE.number,
        month: 12,
        amount: amount as u32,
        heat: Some(1),
        heat_is_low: false,
        carbon: carbon as u32,
        weight: weight.nearest() as u32,
    };
    let fuel = FuelLine {
        mvc: litres as u32,
        ..TRACE
    };
    let draft = Draft {
        records: vec![gas.line()],
        units: vec![unit(1, false, 2_500)],
        fuels: vec![fuel.line()],
        year: YEAR,
        warming_set: FIRST_SET,
    };
    draft.bytes()
}

pub fn figures() -> Vec<PublicFigure> {
    let mut figures = Vec::new();
    for (feet, metres) in IN_FEET.iter().zip(&IN_METRES) {
        figures.push(methane(feet));
        for metres in metres {
            figures.extend([methane(metres), as_in_feet(metres, feet)]);
            figures.extend([of_carbon_per_m3(metres), by_44_over_12(metres)]);
        }
    }
    figures.push(asphalt());
    figures
}

fn name(volume: &Volume, what: &str) -> String {
    let Volume {
        line,
        conditions,
        text,
        ..
    } = volume;
    format!("000 line {line}, {text} per kg-mole at {conditions}, methane, {what}")
}

/// Nothing is rounded but the carbon, and in feet the molar volume.
fn methane(volume: &Volume) -> PublicFigure {
    let amount = Amount::CubicMetre.plenty();
    let kg = co2_of_methane(amount, volume.cubic_metres());
    PublicFigure {
        source: name(volume, "Eq. 20-7"),
        book: book(amount, carbon(), volume.litres()),
        expected: vec![within_rounding(
            Field::FossilKg,
            kg,
            &[carbon(), volume.litres()],
        )],
    }
}

/// The volumes in metres and in feet are one, to the rounding of either.
fn as_in_feet(metres: &Volume, feet: &Volume) -> PublicFigure {
    let amount = Amount::CubicMetre.plenty();
    let kg = co2_of_methane(amount, feet.cubic_metres());
    let digits = [metres, feet].map(|volume| printed(volume.text).digits);
    let rounded = [&digits[..], &[carbon()]].concat();
    PublicFigure {
        source: name(metres, &format!("as by {} scf", feet.text)),
        book: book(amount, carbon(), metres.litres()),
        expected: vec![within_rounding(Field::FossilKg, kg, &rounded)],
    }
}

/// A fuel record of as much carbon per m3 gives the same.
fn of_carbon_per_m3(volume: &Volume) -> PublicFigure {
    let amount = Amount::CubicMetre.plenty();
    let kg = co2_of_methane(amount, volume.cubic_metres());
    let carbon = kg
        .per(printed(CARBON_TO_CO2).value)
        .per(Ratio::whole(amount));
    let per_m3 = carbon.times(Ratio::whole(1_000_000)).nearest();
    let gas = FuelLine { heat: 1, ..TRACE };
    PublicFigure {
        source: name(volume, "carbon per m3"),
        book: one_record(gas, amount, Some(per_m3)),
        expected: vec![within_rounding(Field::FossilKg, kg, &[per_m3])],
    }
}

/// 002's equation with its weights of carbon, 12.0 (line 277), and of CO2, 44 (line 293):
/// a kmol of methane gives one of CO2. The requirements have 3.664 in place of 44/12.
fn by_44_over_12(volume: &Volume) -> PublicFigure {
    let amount = Amount::CubicMetre.plenty();
    let (carbon_weight, co2_weight) = (printed("12.0").value, printed("44").value);
    let part = carbon_weight.per(printed(METHANE_WEIGHT).value);
    let carbon = part.times(Ratio::whole(1_000_000)).nearest();
    let kmol = Ratio::whole(amount).per(volume.cubic_metres());
    let by_the_source = kmol.times(co2_weight);
    let instead = printed(CARBON_TO_CO2)
        .value
        .per(co2_weight.per(carbon_weight));
    PublicFigure {
        source: format!("002 line 411, {}", name(volume, "3.664 for 44/12")),
        book: book(amount, carbon, volume.litres()),
        expected: vec![within_rounding(
            Field::FossilKg,
            by_the_source.times(instead),
            &[carbon],
        )],
    }
}

/// Eq. 200-8, for a billion barrels: 72.35 m3 or 2,555 scf of CH4 per thousand (line
/// 3255), 98 percent of which becomes CO2.
fn asphalt() -> PublicFigure {
    let thousands = Ratio::whole(1_000_000);
    let destroyed = printed("0.98").value;
    let of = |text, per: Amount| {
        let methane = printed(text).value.times(per.in_book());
        methane.times(thousands).times(destroyed)
    };
    let (metres, feet) = (&IN_METRES[0][1], &IN_FEET[0]);
    let amount = of("72.35", Amount::CubicMetre).nearest();
    let in_feet = of("2,555", Amount::Scf);
    let kg = co2_of_methane(1, feet.cubic_metres()).times(in_feet);
    let digits = ["72.35", "2,555", metres.text, feet.text].map(|text| printed(text).digits);
    let rounded = [&digits[..], &[carbon()]].concat();
    PublicFigure {
        source: "000 line 3249, Eq. 200-8 in m3 and in scf, asphalt blown".into(),
        book: book(amount, carbon(), metres.litres()),
        expected: vec![within_rounding(Field::FossilKg, kg, &rounded)],
    }
}

#[cfg(test)]
mod tests {
    use super::*;

    #[test]
    fn molar_volumes_are_whole_litres() {
        let feet = IN_FEET.each_ref().map(Volume::litres);
        assert_eq!(feet, [24_055, 23_673]);
        let metres = IN_METRES
            .each_ref()
            .map(|two| two.each_ref().map(Volume::litres));
        assert_eq!(metres, [[24_100, 24_060], [23_700, 23_670]]);
    }

    /// 0.748635 x 3.664 is 2.74299864.
    #[test]
    fn carbon_of_methane_gives_its_co2() {
        assert_eq!(carbon(), 748_635);
        let co2 = Ratio::new(carbon(), 1_000_000).times(printed(CARBON_TO_CO2).value);
        assert_eq!(co2, Ratio::new(274_299_864, 100_000_000));
    }
}
