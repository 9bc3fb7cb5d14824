//! Reports worked by hand: the requirements' 128-byte example, and what tells
//! the two sets of warming values apart.

use super::{FUEL_1, PLAIN};
use crate::draft::{unit, Burnt, Draft, FIRST_SET, SECOND_SET, SETS};
use crate::exact::{self, Totals};
use crate::exchange::{Exchange, Outcome};
use crate::expectation::{self, Field};
use crate::job;
use crate::random::Random;

/// "A 128-byte book of year 2010 with the record of P1, the unit, the fuel and
/// the trailer", but for the amount.
fn example(amount: u32) -> Draft {
    Draft {
        records: vec![Burnt { amount, ..PLAIN }.line()],
        units: vec![unit(1, false, 2_500)],
        fuels: vec![FUEL_1.line()],
        year: 2010,
        warming_set: FIRST_SET,
    }
}

/// Amount and set, and the five figures in kg; no site of these must report.
type ExampleReport = (&'static str, u32, u8, [u64; 5]);

/// P1 gives 1,900 kg of CO2, 34.2 g of CH4 and 3.42 g of N2O. Under the first
/// set the two gases count for 718.2 g and 1,060.2 g, in all 1,778.4 g, under
/// the second for 855 g and 1,019.16 g, in all 1,874.16 g. A thousand times
/// the amount shows in kilograms what the example rounds away.
const EXAMPLES: [ExampleReport; 4] = [
    (
        "the 128-byte example's report",
        1_000,
        FIRST_SET,
        [1_900, 0, 0, 0, 1_902],
    ),
    (
        "the 128-byte example's report under the second set",
        1_000,
        SECOND_SET,
        [1_900, 0, 0, 0, 1_902],
    ),
    (
        "a thousand times the example",
        1_000_000,
        FIRST_SET,
        [1_900_000, 0, 34, 3, 1_901_778],
    ),
    (
        "a thousand times the example under the second set",
        1_000_000,
        SECOND_SET,
        [1_900_000, 0, 34, 3, 1_901_874],
    ),
];

const TONNE_NG: u64 = 1_000_000_000_000_000;

/// ng of CH4 and of N2O, and their CO2e in kg under each set.
const TONNES: [(&str, [u64; 2], [u64; 2]); 3] = [
    ("a tonne of CH4", [TONNE_NG, 0], [21_000, 25_000]),
    ("a tonne of N2O", [0, TONNE_NG], [310_000, 298_000]),
    (
        "three tonnes of CH4 and one of N2O, alike under both sets",
        [3 * TONNE_NG, TONNE_NG],
        [373_000, 373_000],
    ),
];

pub fn run(exchange: &mut Exchange, rng: &mut Random) -> Outcome<()> {
    for (name, amount, set, figures) in EXAMPLES {
        exchange.case(name);
        let book = example(amount).under(set);
        exchange.state(book.len() == 128, "the example has 128 bytes")?;
        job::whole(exchange, rng, &book, expectation::report(figures, false))?;
    }
    for (name, [ch4_ng, n2o_ng], co2e_kg) in TONNES {
        exchange.case(name);
        let draft = exact::book(Totals {
            ch4_ng,
            n2o_ng,
            ..Totals::default()
        });
        for (set, kg) in SETS.into_iter().zip(co2e_kg) {
            let printed = vec![Field::Number.is(0), Field::Co2eKg.is(kg)];
            job::whole(exchange, rng, &draft.under(set), printed)?;
        }
    }
    Ok(())
}

#[cfg(test)]
mod tests {
    use super::*;

    /// As the requirements print it, and rounded to the same under either set.
    #[test]
    fn the_example_is_printed_under_each_set() {
        let printed = "year 2010\nrecords 1\nfossil-co2-kg 1900\nbiomass-co2-kg 0\n\
                       ch4-kg 0\nn2o-kg 0\nco2e-kg 1902\nmust-report no\n";
        for set in SETS {
            assert_eq!(second::annual::text(&example(1_000).under(set)), printed);
        }
        let third_set = second::annual::text(&example(1_000).under(2));
        assert_eq!(third_set, "refused 21\n");
    }

    #[test]
    fn a_thousand_times_the_example_tells_the_sets_apart() {
        for (set, co2e) in SETS.into_iter().zip(["1901778", "1901874"]) {
            let printed = format!(
                "year 2010\nrecords 1\nfossil-co2-kg 1900000\nbiomass-co2-kg 0\n\
                 ch4-kg 34\nn2o-kg 3\nco2e-kg {co2e}\nmust-report no\n"
            );
            assert_eq!(
                second::annual::text(&example(1_000_000).under(set)),
                printed
            );
        }
    }
}
