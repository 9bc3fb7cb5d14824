//! Anodes worked by hand: what the impurities leave, each way to round, any sort of
//! unit, and what a record is refused for.

use super::{counted, set_aside, Sum, FUEL_1};
use crate::draft::{dry_unit, unit, Anodes, Line};
use crate::expectation::{Expectation, Field};

/// 400 kg of anodes, 97 percent of which is carbon.
const MONTH: Anodes = Anodes {
    unit: 1,
    month: 1,
    metal: 1_000,
    net_use: 400,
    impurities: [200, 50, 50],
};
const MONTH_UG: u64 = 1_421_632_000_000;

/// Metal in kg, use in g per kg, impurities in hundredths of a percent, and CO2 in µg.
type Month = (&'static str, u32, u32, [u16; 3], u64);

/// | metal x use         | grams           | of which carbon    | x 3,664,000 µg             |
/// |---------------------|-----------------|--------------------|----------------------------|
/// | 1,000 x 400         | 400,000         | 388,000            | 1,421,632,000,000          |
/// | 1 x 1               | 1               | 1                  | 3,664,000                  |
/// | 100,000,000 x 1,000 | 100,000,000,000 | 100,000,000,000    | 366,400,000,000,000,000    |
/// | 12,345,678 x 433    | 5,345,678,574   | 5,114,745,259.6032 | 18,740,426,631,186,124.8   |
///
/// Impurities that were multiplied as parts, 0.98 x 0.995 x 0.995, would leave 388,089.8
/// of the 400,000 grams.
const MASSES: [Month; 11] = [
    ("a month's anodes", 1_000, 400, [200, 50, 50], MONTH_UG),
    ("a gram of carbon", 1, 1, [0, 0, 0], 3_664_000),
    (
        "the largest anodes",
        100_000_000,
        1_000,
        [0, 0, 0],
        366_400_000_000_000_000,
    ),
    (
        "anodes of every digit",
        12_345_678,
        433,
        [305, 77, 50],
        18_740_426_631_186_125,
    ),
    ("anodes for no metal", 0, 400, [200, 50, 50], 0),
    ("no anodes for metal", 1_000, 0, [200, 50, 50], 0),
    ("anodes all of sulphur", 1_000, 400, [10_000, 0, 0], 0),
    ("anodes all of ash", 1_000, 400, [0, 10_000, 0], 0),
    ("anodes all of others", 1_000, 400, [0, 0, 10_000], 0),
    (
        "anodes without carbon",
        1_000,
        400,
        [5_000, 3_000, 2_000],
        0,
    ),
    (
        "anodes of 0.01 percent of carbon",
        1_000,
        400,
        [3_333, 3_333, 3_333],
        146_560_000,
    ),
];

/// Of a gram, one to five ten-thousandths are carbon: 366.4, 732.8, 1,099.2, 1,465.6
/// and 1,832 µg. No number of them makes a half, for 3,664 is even.
const ROUNDED: [Month; 5] = [
    ("366.4 goes down", 1, 1, [9_999, 0, 0], 366),
    ("732.8 goes up", 1, 1, [0, 9_998, 0], 733),
    ("1,099.2 goes down", 1, 1, [0, 0, 9_997], 1_099),
    ("1,465.6 goes up", 1, 1, [3_332, 3_332, 3_332], 1_466),
    ("1,832 stays", 1, 1, [9_990, 3, 2], 1_832),
];

fn of(name: &'static str, unit: Line, anodes: Anodes, printed: Vec<Expectation>) -> Sum {
    Sum {
        name,
        unit,
        fuel: FUEL_1,
        record: anodes.line(),
        printed,
    }
}

fn mass((name, metal, net_use, impurities, co2_ug): Month) -> Sum {
    let anodes = Anodes {
        metal,
        net_use,
        impurities,
        ..MONTH
    };
    let no_gases = [Field::Ch4Ng.is(0), Field::N2oNg.is(0)];
    let printed = [&counted(0, co2_ug)[..], &no_gases].concat();
    of(name, unit(1, false, 2_500), anodes, printed)
}

/// Whatever its monitor and its rating.
fn on_any_unit() -> [Sum; 3] {
    let units = [
        ("anodes on a large unit", unit(1, false, 100_000)),
        ("anodes on a wet unit", unit(1, true, 2_500)),
        ("anodes on a dry unit", dry_unit(1, 2_501)),
    ];
    units.map(|(name, unit)| of(name, unit, MONTH, counted(0, MONTH_UG)))
}

fn out_of_range() -> [Sum; 8] {
    let with = |metal, net_use, impurities| Anodes {
        metal,
        net_use,
        impurities,
        ..MONTH
    };
    let faults = [
        ("anodes of month 0", Anodes { month: 0, ..MONTH }),
        ("anodes of month 13", Anodes { month: 13, ..MONTH }),
        ("100,000,001 kg of metal", with(100_000_001, 1, [0; 3])),
        ("1,001 g of anodes per kg", with(1, 1_001, [0; 3])),
        ("sulphur 100.01 percent", with(1, 1, [10_001, 0, 0])),
        ("ash 100.01 percent", with(1, 1, [0, 10_001, 0])),
        ("others 100.01 percent", with(1, 1, [0, 0, 10_001])),
        ("impurities 100.01 percent", with(1, 1, [5_000, 5_000, 1])),
    ];
    faults.map(|(name, anodes)| of(name, unit(1, false, 2_500), anodes, set_aside(4)))
}

fn in_bad_form() -> [Sum; 4] {
    let faults = [
        ("anodes with a flag", 1),
        ("anodes with a fuel number", 4),
        ("anodes with a byte after the impurities", 22),
        ("anodes with a last byte", 31),
    ];
    faults.map(|(name, place)| {
        let mut sum = of(name, unit(1, false, 2_500), MONTH, set_aside(1));
        sum.record[place] = 1;
        sum
    })
}

pub fn sums() -> impl Iterator<Item = Sum> {
    let masses = MASSES.into_iter().chain(ROUNDED).map(mass);
    let elsewhere = of(
        "anodes on another unit",
        unit(2, false, 2_500),
        MONTH,
        set_aside(2),
    );
    let refused = out_of_range().into_iter().chain(in_bad_form());
    let on_units = on_any_unit().into_iter().chain([elsewhere]);
    masses.chain(on_units).chain(refused)
}

#[cfg(test)]
mod tests {
    use super::*;
    use second::annual::text;

    #[test]
    fn a_months_anodes_are_printed_as_fossil_co2() {
        let printed = "year 2010\nrecords 1\nfossil-co2-kg 1422\nbiomass-co2-kg 0\n\
                       ch4-kg 0\nn2o-kg 0\nco2e-kg 1422\nmust-report no\n";
        assert_eq!(text(&super::super::book(&mass(MASSES[0]))), printed);
        let largest = text(&super::super::book(&mass(MASSES[2])));
        assert!(largest.contains("\nfossil-co2-kg 366400000\n"));
        assert!(largest.ends_with("\nmust-report yes\n"));
    }

    #[test]
    fn anodes_set_aside_are_printed_with_their_reason() {
        let [month_0, ..] = out_of_range();
        let printed = "refused 41 record 0 reason 4\n";
        assert_eq!(text(&super::super::book(&month_0)), printed);
        let [flagged, ..] = in_bad_form();
        let printed = "refused 41 record 0 reason 1\n";
        assert_eq!(text(&super::super::book(&flagged)), printed);
    }
}
