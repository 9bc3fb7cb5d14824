//! Totals at the thresholds of the decision and at halves of a kilogram,
//! down to a single nanogram on either side, under each set of warming values.

use crate::draft::SETS;
use crate::exact::{self, Totals, UG_PER_TONNE};
use crate::exchange::{Exchange, Outcome};
use crate::expectation::{Expectation, Field};
use crate::job;
use crate::random::Random;

/// Micrograms away from a threshold.
const STEPS_UG: [i64; 7] = [
    -1_000_000_000,
    -500_000_000,
    -1,
    0,
    1,
    499_999_999,
    500_000_000,
];

/// µg of CO2, ng of CH4 and ng of N2O.
type Step = (i64, u64, u64);

/// Steps that leave T one nanogram below where it was, by set. Under the first
/// 619 ng of CH4 are 12,999 ng of CO2e, with 13 µg of CO2 less. Under the
/// second, whose values can't do it by one gas alone, 5 ng of CH4 and 13 ng of
/// N2O are 125 + 3,874 = 3,999 ng, with 4 µg less.
const NANOGRAM_BELOW: [Step; 2] = [(-13, 619, 0), (-4, 5, 13)];

/// And one nanogram above: 381 ng of CH4 are 8,001 ng; 17 ng of CH4 and 12 ng
/// of N2O are 425 + 3,576 = 4,001 ng.
const NANOGRAM_ABOVE: [Step; 2] = [(-8, 381, 0), (-4, 17, 12)];

pub fn run(exchange: &mut Exchange, rng: &mut Random) -> Outcome<()> {
    exchange.case("T about 10,000 t, no biomass");
    around(exchange, rng, 10_000, 0)?;
    for biomass in [1, 9_999, 14_999, 15_000, 15_001, 24_999] {
        exchange.case(format!("T about 25,000 t, biomass {biomass} t"));
        around(exchange, rng, 25_000, biomass)?;
    }
    for biomass in [1, 5_000, 14_999, 15_000] {
        exchange.case(format!(
            "T less biomass about 10,000 t, biomass {biomass} t"
        ));
        around(exchange, rng, 10_000 + biomass, biomass)?;
    }
    exchange.case("biomass about 15,000 t, T about 24,999 t");
    biomass_limit(exchange, rng)?;
    exchange.case("halves of a kilogram in each figure");
    halves(exchange, rng)?;
    exchange.case("rounded lines that do not add up");
    uneven(exchange, rng)
}

/// A book of these totals under a set, with a report that holds what is
/// printed.
fn held_under(
    exchange: &mut Exchange,
    rng: &mut Random,
    set: u8,
    totals: Totals,
    printed: Vec<Expectation>,
) -> Outcome<()> {
    let draft = exact::book(totals);
    let book = draft.under(set);
    job::whole(exchange, rng, &book, printed)?;
    job::everything(exchange, rng, &book, draft.records.len())
}

/// The same under each set, for what is printed does not depend on it.
fn held(
    exchange: &mut Exchange,
    rng: &mut Random,
    totals: Totals,
    printed: Vec<Expectation>,
) -> Outcome<()> {
    for set in SETS {
        held_under(exchange, rng, set, totals, printed.clone())?;
    }
    Ok(())
}

fn around(exchange: &mut Exchange, rng: &mut Random, total: u64, biomass: u64) -> Outcome<()> {
    for set in SETS {
        let steps = STEPS_UG.map(|step| (step, 0, 0));
        let above = NANOGRAM_ABOVE[usize::from(set)];
        let fine = [NANOGRAM_BELOW[usize::from(set)], above];
        for step in steps.into_iter().chain(fine) {
            let (step_ug, ch4_ng, n2o_ng) = step;
            let fossil_ug = ((total - biomass) * UG_PER_TONNE).wrapping_add_signed(step_ug);
            let totals = Totals {
                fossil_ug,
                biomass_ug: biomass * UG_PER_TONNE,
                ch4_ng,
                n2o_ng,
            };
            let below = step_ug < 0 && step != above;
            let must_report = must_report(total, biomass, below);
            let printed = vec![Field::MustReport.is(u64::from(must_report))];
            held_under(exchange, rng, set, totals, printed)?;
        }
    }
    Ok(())
}

/// The decision where T is at `total` tonnes, or a little below.
fn must_report(total: u64, biomass: u64, below: bool) -> bool {
    let t_is_large = total > 25_000 || (total == 25_000 && !below);
    let subtracted = if t_is_large { 0 } else { biomass.min(15_000) };
    let rest = total - subtracted;
    rest > 10_000 || (rest == 10_000 && !below)
}

fn biomass_limit(exchange: &mut Exchange, rng: &mut Random) -> Outcome<()> {
    for fossil_t in [9_998, 9_999] {
        for step_ug in STEPS_UG {
            let totals = Totals {
                fossil_ug: fossil_t * UG_PER_TONNE,
                biomass_ug: (15_000 * UG_PER_TONNE).wrapping_add_signed(step_ug),
                ..Totals::default()
            };
            held(exchange, rng, totals, Vec::new())?;
        }
    }
    Ok(())
}

/// "Rounded once from its own exact total, half upward."
fn halves(exchange: &mut Exchange, rng: &mut Random) -> Outcome<()> {
    for kilograms in [0, 1, 2, 12_345, 1_234_567] {
        for step in [-1, 0, 1] {
            let ug = (kilograms * 1_000_000_000 + 500_000_000u64).wrapping_add_signed(step);
            let ng = (kilograms * 1_000_000_000_000 + 500_000_000_000).wrapping_add_signed(step);
            let totals = Totals {
                fossil_ug: ug,
                biomass_ug: ug,
                ch4_ng: ng,
                n2o_ng: ng,
            };
            let rounded = kilograms + u64::from(step >= 0);
            let figures = [
                Field::FossilKg,
                Field::BiomassKg,
                Field::Ch4Kg,
                Field::N2oKg,
            ];
            let printed = figures.map(|figure| figure.is(rounded)).to_vec();
            held(exchange, rng, totals, printed)?;
        }
    }
    Ok(())
}

/// "The rounded lines need not add up": two halves and a whole.
fn uneven(exchange: &mut Exchange, rng: &mut Random) -> Outcome<()> {
    let half = 500_000_000;
    let totals = Totals {
        fossil_ug: half,
        biomass_ug: half,
        ..Totals::default()
    };
    let printed = vec![
        Field::FossilKg.is(1),
        Field::BiomassKg.is(1),
        Field::Co2eKg.is(1),
    ];
    held(exchange, rng, totals, printed)
}
