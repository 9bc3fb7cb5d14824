//! Part 98 Eq. C-7 against Eq. C-6, which source 003 prints as Eq.
//! and source 002 (section 3.1.2) as its calculations B and A: dry gas counts (100 -
//! %H2O)/100 of what wet gas counts.
//!
//! Neither source prints a reading. Those here are made from the F-factors of 002's
//! Appendix B: burnt without excess air, a fuel gives F dscf of dry gas per mmBtu
//! and F_C scf of CO2 among them, which is 100 x F_C / F percent (002 line 235 with
//! no oxygen). F and F_C stand on both sides, so only the readings are rounded.

use super::factors_002::{rows, Row};
use super::ratio::{printed, Ratio};
use super::reading::{self, Reading};
use super::units::Amount;
use super::{within_rounding, PublicFigure, YEAR};
use crate::draft::{dry_unit, hour, unit, with_moisture, Draft, Line, FIRST_SET};
use crate::expectation::{Expectation, Field};

/// 003 line 3286, t per scf and percent, so that the report's kg are 1,000 times it.
const CONVERSION_003: &str = "0.000000518";
/// 002 line 219, short tons per scf and percent.
const CONVERSION_002: &str = "0.00000057";
/// mmBtu in the hour; no flow passes its limit with so many.
const HEAT: u128 = 40_000;
/// The sources print none, and any serves; the fuels take turns.
const MOISTURES: [&str; 4] = ["0.1", "8.0", "12.5", "50.0"];
/// Percent of oxygen in ambient air (002 line 247), and in dry stack gas.
const AIR: &str = "20.9";
const OXYGEN: &str = "7.0";

pub fn figures() -> Vec<PublicFigure> {
    let mut figures = Vec::new();
    for (row, percent) in rows().zip(MOISTURES.into_iter().cycle()) {
        let moisture = Moisture::of(percent);
        figures.extend([
            wet(&row),
            dry(&row, &moisture),
            whole_stack(&row, &moisture),
        ]);
        figures.extend(by_oxygen(&row, &moisture));
    }
    figures
}

/// %H2O as printed, and (100 - %H2O)/100.
struct Moisture {
    percent: &'static str,
    dry_share: Ratio,
}

impl Moisture {
    fn of(percent: &'static str) -> Moisture {
        let dry = Ratio::whole(100).minus(printed(percent).value);
        Moisture {
            percent,
            dry_share: dry.per(Ratio::whole(100)),
        }
    }

    fn tenths(&self) -> u16 {
        printed(self.percent).digits as u16
    }
}

/// Percent of CO2 and scf/h of gas, exact.
#[derive(Clone, Copy)]
struct Stack {
    percent: Ratio,
    flow: Ratio,
}

impl Stack {
    fn of(row: &Row) -> Stack {
        let [dry_gas, co2] = [row.dry_gas, row.co2].map(|text| printed(text).value);
        Stack {
            percent: Ratio::whole(100).times(co2).per(dry_gas),
            flow: dry_gas.times(Ratio::whole(HEAT)),
        }
    }

    fn readings(&self) -> [Reading; 2] {
        [self.percent, self.flow].map(reading::nearest)
    }

    fn hour(&self) -> Line {
        let [percent, flow] = self.readings().map(|reading| reading.bits);
        hour(1, 1, percent, flow)
    }

    /// 003 Eq..
    fn kg(&self) -> Ratio {
        let tonnes_per = printed(CONVERSION_003).value;
        let kg_per = tonnes_per.times(Amount::MetricTon.in_book());
        kg_per.times(self.percent).times(self.flow)
    }

    fn expected(&self, kg: Ratio) -> Expectation {
        let digits = self.readings().map(|reading| reading.digits);
        within_rounding(Field::FossilKg, kg, &digits)
    }
}

fn one_hour(unit: Line, hour: Line) -> Vec<u8> {
    let draft = Draft {
        records: vec![hour],
        units: vec![unit],
        fuels: Vec::new(),
        year: YEAR,
        warming_set: FIRST_SET,
    };
    draft.bytes()
}

fn on_wet_unit(hour: Line) -> Vec<u8> {
    one_hour(unit(1, true, 2_500), hour)
}

fn on_dry_unit(hour: Line, moisture: &Moisture) -> Vec<u8> {
    let moist = with_moisture(hour, moisture.tenths());
    one_hour(dry_unit(1, 2_500), moist)
}

fn source(equation: &str, row: &Row) -> String {
    format!("{equation}, {} (002 line {})", row.fuel, row.line)
}

fn moist_source(equation: &str, row: &Row, moisture: &Moisture) -> String {
    let source = source(equation, row);
    format!("{source}, {} percent of moisture", moisture.percent)
}

fn wet(row: &Row) -> PublicFigure {
    let stack = Stack::of(row);
    PublicFigure {
        source: source("003 line 3280, Eq. A-6.6", row),
        book: on_wet_unit(stack.hour()),
        expected: vec![stack.expected(stack.kg())],
    }
}

/// The wet hour's readings with moisture.
fn dry(row: &Row, moisture: &Moisture) -> PublicFigure {
    let stack = Stack::of(row);
    let kg = stack.kg().times(moisture.dry_share);
    PublicFigure {
        source: moist_source("003 line 3295, Eq. A-6.7 of A-6.6", row, moisture),
        book: on_dry_unit(stack.hour(), moisture),
        expected: vec![stack.expected(kg)],
    }
}

/// With its moisture the stack's flow is 100/(100 - %H2O) of the dry gas, so that
/// the CO2 is that of the dry gas again, in 003's tonnes and in 002's short tons.
fn whole_stack(row: &Row, moisture: &Moisture) -> PublicFigure {
    let dry_gas = Stack::of(row);
    let stack = Stack {
        flow: dry_gas.flow.per(moisture.dry_share),
        ..dry_gas
    };
    let [by_002, by_003] = [CONVERSION_002, CONVERSION_003].map(printed);
    let per_tonne = by_002.value.per(by_003.value);
    let kg_by_002 = dry_gas.kg().times(per_tonne).times(short_ton_in_tonnes());
    let digits = [by_002.digits, by_003.digits];
    PublicFigure {
        source: moist_source("002 line 223, calculation B", row, moisture),
        book: on_dry_unit(stack.hour(), moisture),
        expected: vec![
            stack.expected(dry_gas.kg()),
            within_rounding(Field::FossilKg, kg_by_002, &digits),
        ],
    }
}

fn short_ton_in_tonnes() -> Ratio {
    Amount::ShortTon.in_book().per(Amount::MetricTon.in_book())
}

/// Where oxygen is measured instead: by the equation for wet gas on a wet unit and
/// by the one for dry gas on a dry unit, the same stack gives the same CO2.
fn by_oxygen(row: &Row, moisture: &Moisture) -> [PublicFigure; 2] {
    let [air, oxygen] = [AIR, OXYGEN].map(|text| printed(text).value);
    let burnt = Stack::of(row);
    let in_dry_gas = Stack {
        percent: burnt.percent.times(air.minus(oxygen)).per(air),
        ..burnt
    };
    let wet_oxygen = oxygen.times(moisture.dry_share);
    let used = air.times(moisture.dry_share).minus(wet_oxygen);
    let in_wet_gas = Stack {
        percent: burnt.percent.per(air).times(used),
        ..burnt
    };
    let kg = in_dry_gas.kg().times(moisture.dry_share);
    [
        PublicFigure {
            source: moist_source("002 line 233, wet basis O2", row, moisture),
            book: on_wet_unit(in_wet_gas.hour()),
            expected: vec![in_wet_gas.expected(kg)],
        },
        PublicFigure {
            source: moist_source("002 line 235, dry basis O2", row, moisture),
            book: on_dry_unit(in_dry_gas.hour(), moisture),
            expected: vec![in_dry_gas.expected(kg)],
        },
    ]
}

#[cfg(test)]
mod tests {
    use super::*;

    /// 5.18 x 10^-7 t x 100 x 1,800 scf/mmBtu x 40,000 mmBtu is 3,729.6 t, whatever
    /// F is, and half of it with 50 percent of moisture.
    #[test]
    fn bituminous_coal_gives_what_its_factor_says() {
        let coal = rows().nth(1).expect("it is the second row");
        let stack = Stack::of(&coal);
        assert_eq!(stack.kg(), Ratio::whole(3_729_600));
        let half = Moisture::of("50.0");
        assert_eq!((half.tenths(), half.dry_share), (500, Ratio::new(1, 2)));
        let digits = stack.readings().map(|reading| reading.digits);
        assert!(digits
            .iter()
            .all(|digits| (1 << 23..1 << 24).contains(digits)));
    }
}
