//! Group 1: every sum that the requirements work by hand ("Sums worked by hand"),
//! with the result that the document prints, and others worked from its rules.

mod analysed_gas;
mod anodes;
mod low_heat;
mod moisture;
mod repeats;
mod reports;
mod rounding;

use crate::draft::{hour, unit, Burnt, Draft, FuelLine, Line, FIRST_SET, SETS};
use crate::exact::{self, Totals, UG_PER_TONNE};
use crate::exchange::{Exchange, Outcome};
use crate::expectation::{Expectation, Field};
use crate::job;
use crate::random::Random;

/// One record in a book of one unit and one fuel, and what call 4 must say.
struct Sum {
    name: &'static str,
    unit: Line,
    fuel: FuelLine,
    record: Line,
    printed: Vec<Expectation>,
}

/// "Fuel 1: kind 3, class 1, default 38,000, CO2 50,000, CH4 900, N2O 90."
const FUEL_1: FuelLine = FuelLine {
    number: 1,
    kind: 3,
    class: 1,
    heat: 38_000,
    co2: 50_000,
    ch4: 900,
    n2o: 90,
    mvc: 0,
};

/// "Amount 1,000", in unit 1, no flags.
const PLAIN: Burnt = Burnt {
    unit: 1,
    fuel: 1,
    month: 1,
    amount: 1_000,
    heat: None,
    heat_is_low: false,
    carbon: None,
};

const HEAT_MEASURED: Burnt = Burnt {
    heat: Some(39_000),
    ..PLAIN
};

const CARBON_MEASURED: Burnt = Burnt {
    carbon: Some(520_000),
    ..PLAIN
};

fn book(sum: &Sum) -> Vec<u8> {
    let draft = Draft {
        records: vec![sum.record],
        units: vec![sum.unit],
        fuels: vec![sum.fuel.line()],
        year: 2010,
        warming_set: FIRST_SET,
    };
    draft.bytes()
}

fn sum(name: &'static str, rating: u32, record: Burnt, printed: Vec<Expectation>) -> Sum {
    Sum {
        name,
        unit: unit(1, false, rating),
        fuel: FUEL_1,
        record: record.line(),
        printed,
    }
}

fn monitored(name: &'static str, readings: [u32; 2], printed: Vec<Expectation>) -> Sum {
    let [percent, flow] = readings;
    Sum {
        name,
        unit: unit(1, true, 2_500),
        fuel: FUEL_1,
        record: hour(1, 1, percent, flow),
        printed,
    }
}

fn counted(method: u64, co2_ug: u64) -> Vec<Expectation> {
    vec![
        Field::Reason.is(0),
        Field::Method.is(method),
        Field::Ledger.is(1),
        Field::Co2Ug.is(co2_ug),
    ]
}

fn set_aside(reason: u64) -> Vec<Expectation> {
    vec![Field::Number.is(0), Field::Reason.is(reason)]
}

fn fuel_sums() -> Vec<Sum> {
    let gases = vec![
        Field::Ch4Ng.is(34_200_000_000),
        Field::N2oNg.is(3_420_000_000),
    ];
    let class_0_gas = FuelLine { class: 0, ..FUEL_1 };
    let no_heat = FuelLine { heat: 0, ..FUEL_1 };
    let p1 = [counted(1, 1_900_000_000_000), gases].concat();
    vec![
        sum("P1", 2_500, PLAIN, p1),
        sum("P2", 2_500, HEAT_MEASURED, counted(2, 1_950_000_000_000)),
        sum("P3", 2_500, CARBON_MEASURED, counted(3, 1_905_280_000_000)),
        sum("P4", 2_501, PLAIN, set_aside(6)),
        sum("P5", 2_501, HEAT_MEASURED, counted(2, 1_950_000_000_000)),
        Sum {
            fuel: class_0_gas,
            ..sum("P6", 2_501, HEAT_MEASURED, set_aside(6))
        },
        Sum {
            fuel: no_heat,
            ..sum(
                "carbon measured, no heat anywhere",
                2_500,
                CARBON_MEASURED,
                set_aside(7),
            )
        },
    ]
}

fn hour_sums() -> Vec<Sum> {
    let p7 = [0x4148_0000, 0x49F4_2400];
    let quarters = [0x3E80_0000, 0x3E80_0000];
    let three_quarters = [0x3F40_0000, 0x3E80_0000];
    let just_above_100 = [0x42C8_0001, 0x49F4_2400];
    let nan = [0x7FC0_0000, 0x49F4_2400];
    vec![
        monitored("P7", p7, counted(0, 12_950_000_000_000)),
        monitored("P8", quarters, counted(0, 32_116)),
        monitored("P9", three_quarters, counted(0, 97_384)),
        monitored("percent just above 100", just_above_100, set_aside(4)),
        monitored("percent NaN", nan, set_aside(4)),
    ]
}

fn sums() -> impl Iterator<Item = Sum> {
    let of_the_document = fuel_sums().into_iter().chain(hour_sums());
    let others = low_heat::sums().chain(rounding::sums());
    let others = others.chain(moisture::sums()).chain(anodes::sums());
    let others = others.chain(analysed_gas::sums());
    of_the_document.chain(others)
}

/// P10 to P12: T and biomass in tonnes, and whether the site must report. They
/// have no CH4 and no N2O, so each set of warming values gives the same.
const DECISIONS: [(&str, u64, u64, u64); 3] = [
    ("P10", 10_000, 0, 1),
    ("P11", 24_999, 16_000, 0),
    ("P12", 25_000, 16_000, 1),
];

fn decision_book(total: u64, biomass: u64) -> Draft {
    exact::book(Totals {
        fossil_ug: (total - biomass) * UG_PER_TONNE,
        biomass_ug: biomass * UG_PER_TONNE,
        ..Totals::default()
    })
}

pub fn run(exchange: &mut Exchange, rng: &mut Random) -> Outcome<()> {
    for sum in sums() {
        exchange.case(sum.name);
        let book = book(&sum);
        job::record(exchange, &book, 0, sum.printed)?;
        job::whole(exchange, rng, &book, Vec::new())?;
    }
    for (name, total, biomass, must_report) in DECISIONS {
        exchange.case(name);
        let printed = vec![
            Field::Number.is(0),
            Field::Co2eKg.is(total * 1_000),
            Field::BiomassKg.is(biomass * 1_000),
            Field::MustReport.is(must_report),
        ];
        for set in SETS {
            let book = decision_book(total, biomass).under(set);
            job::whole(exchange, rng, &book, printed.clone())?;
        }
    }
    reports::run(exchange, rng)?;
    repeats::run(exchange, rng)
}

#[cfg(test)]
mod tests {
    use super::*;
    use second::answer::one_record;

    #[test]
    fn second_gives_every_worked_sum() {
        for sum in sums() {
            let head = one_record(&book(&sum), 0);
            for printed in &sum.printed {
                assert_eq!(printed.complaint(&head), None, "{}", sum.name);
            }
        }
    }

    #[test]
    fn second_decides_as_document_01_does() {
        for (name, total, biomass, must_report) in DECISIONS {
            let decision = ["no", "yes"][must_report as usize];
            let last = format!("must-report {decision}\n");
            for set in SETS {
                let text = second::annual::text(&decision_book(total, biomass).under(set));
                assert!(text.ends_with(&last), "{name}: {text}");
            }
        }
    }

    #[test]
    fn a_record_set_aside_is_printed_with_its_reason() {
        let p4 = second::annual::text(&book(&fuel_sums()[3]));
        assert_eq!(p4, "refused 41 record 0 reason 6\n");
    }
}
