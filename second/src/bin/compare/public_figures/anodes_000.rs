//! Eq. 70-1 of source 000, "For Prebaked Anodes", which source 001 prints alike (line
//! 762): over twelve months, NCC x MP x (100 - S_a - Ash_a - Imp_a)/100 x 3.664 in
//! metric tons.
//!
//! The sources print the equation and 3.664 (000 line 2375), and no value of anything
//! else in it, nor a sum. The values here are whole in the units of a book, so nothing
//! but the report's own rounding stands between the equation and its kilograms.

use super::ratio::{printed, Ratio};
use super::{PublicFigure, YEAR};
use crate::draft::{unit, Anodes, Draft, FIRST_SET};
use crate::expectation::Field;

/// Line 2375.
const CARBON_TO_CO2: &str = "3.664";

/// As the equation names them: NCC in t per t of aluminum, MP in t, and the three
/// contents in percent by weight.
struct Month {
    ncc: &'static str,
    mp: &'static str,
    contents: [&'static str; 3],
}

const fn month(ncc: &'static str, mp: &'static str, contents: [&'static str; 3]) -> Month {
    Month { ncc, mp, contents }
}

const YEAR_OF_MONTHS: [Month; 12] = [
    month("0.412", "21,034.517", ["2.04", "0.31", "0.12"]),
    month("0.409", "18,996.000", ["1.98", "0.28", "0.15"]),
    month("0.415", "20,871.250", ["2.11", "0.35", "0.10"]),
    month("0.411", "20,100.001", ["2.00", "0.30", "0.00"]),
    month("0.420", "19,555.555", ["2.50", "0.00", "0.20"]),
    month("0.408", "20,480.128", ["0.00", "0.40", "0.40"]),
    month("0.413", "21,999.999", ["1.75", "0.22", "0.33"]),
    month("0.399", "22,000.000", ["3.01", "0.49", "0.50"]),
    month("0.431", "17,203.900", ["1.20", "0.75", "1.05"]),
    month("0.414", "20,640.313", ["2.25", "0.27", "0.13"]),
    month("0.410", "20,000.007", ["0.01", "0.01", "0.01"]),
    month("0.416", "20,999.993", ["2.07", "0.33", "0.11"]),
];

impl Month {
    /// In kg.
    fn co2(&self) -> Ratio {
        let contents = self.contents.map(|content| printed(content).value);
        let hundred = Ratio::whole(100);
        let carbon = contents.into_iter().fold(hundred, Ratio::minus);
        let metal = printed(self.mp).value.times(Ratio::whole(1_000));
        let anodes = metal.times(printed(self.ncc).value);
        let carbon = anodes.times(carbon).per(hundred);
        carbon.times(printed(CARBON_TO_CO2).value)
    }

    /// Digits alone, for kg, g per kg and hundredths of a percent are what the
    /// decimals here are written in.
    fn anodes(&self, month: u16) -> Anodes {
        Anodes {
            unit: 1,
            month,
            metal: printed(self.mp).digits as u32,
            net_use: printed(self.ncc).digits as u32,
            impurities: self.contents.map(|content| printed(content).digits as u16),
        }
    }
}

pub fn figures() -> Vec<PublicFigure> {
    let carbon = month("1.000", "100,000.000", ["0.00", "0.00", "0.00"]);
    let singles = YEAR_OF_MONTHS.iter().zip(1..).map(|(month, number)| {
        let name = format!("000 line 2365, Eq. 70-1, month {number} alone");
        figure(name, &[(month, number)])
    });
    let all: Vec<(&Month, u16)> = YEAR_OF_MONTHS.iter().zip(1..).collect();
    let year = figure("000 line 2365, Eq. 70-1, twelve months".into(), &all);
    let carbon_name = "000 line 2375, 3.664, 100,000 t of carbon";
    let of_carbon = figure(carbon_name.into(), &[(&carbon, 1)]);
    singles.chain([year, of_carbon]).collect()
}

fn figure(source: String, months: &[(&Month, u16)]) -> PublicFigure {
    let zero = Ratio::whole(0);
    let kg = months
        .iter()
        .fold(zero, |sum, (month, _)| sum.plus(month.co2()));
    let records = months.iter().map(|(month, number)| month.anodes(*number));
    let draft = Draft {
        records: records.map(|anodes| anodes.line()).collect(),
        units: vec![unit(1, false, 2_500)],
        fuels: Vec::new(),
        year: YEAR,
        warming_set: FIRST_SET,
    };
    PublicFigure {
        source,
        book: draft.bytes(),
        expected: vec![Field::Number.is(0), Field::FossilKg.is(kg.nearest() as u64)],
    }
}

#[cfg(test)]
mod tests {
    use super::*;

    /// 21,034,517 kg x 0.412 x 0.9753 x 3.664 is 30,968,733.82... kg, worked with 366.4
    /// times 21,034,517 x 412 x 9,753 in µg.
    #[test]
    fn the_equation_is_that_of_a_record() {
        let ug = YEAR_OF_MONTHS[0].co2().times(Ratio::whole(1_000_000_000));
        let tenths = 21_034_517 * 412 * 9_753 * 3_664;
        assert_eq!(ug, Ratio::new(tenths, 10));
    }

    #[test]
    fn decimals_have_the_digits_of_a_book() {
        for month in &YEAR_OF_MONTHS {
            let places = |text: &str| text.split_once('.').map(|(_, after)| after.len());
            assert_eq!(places(month.ncc), Some(3));
            assert_eq!(places(month.mp), Some(3));
            assert_eq!(month.contents.map(places), [Some(2); 3]);
        }
    }
}
