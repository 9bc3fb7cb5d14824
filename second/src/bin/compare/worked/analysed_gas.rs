//! Gas analysed by molecular weight, worked by hand on fuel 1 with a molar volume: each
//! way to round, products past 64 bits, every method, and what is refused.

mod methods;
mod refused;

use super::{Sum, FUEL_1};
use crate::draft::{unit, Analysed, FuelLine, Line};
use crate::expectation::{Expectation, Field};

/// 1,000 m3 x 750,000 mg/kg x 16,000 g/kmol / 24,000 l/kmol is 500 kg of carbon.
const GAS: Analysed = Analysed {
    unit: 1,
    fuel: 1,
    month: 1,
    amount: 1_000,
    heat: None,
    heat_is_low: false,
    carbon: 750_000,
    weight: 16_000,
};
const GAS_UG: u64 = 1_832_000_000_000;
const MVC: u32 = 24_000;

/// Amount, carbon and molecular weight, molar volume, and CO2 in µg.
type Burning = (&'static str, [u32; 3], u32, u64);

/// | product of the three       | x 3,664                        | by     | leaves |
/// |----------------------------|--------------------------------|--------|--------|
/// | 12,000,000,000,000         | 43,968,000,000,000,000         | 24,000 | 0      |
/// | 20,000,000,000,000,000,000 | 73,280,000,000,000,000,000,000 | 20,000 | 0      |
/// | the same                   | the same                       | 20,001 | 17,978 |
/// | the same                   | the same                       | 27,000 | 2,000  |
/// | 177,325,065,459,343,440    | 649,719,039,843,034,364,160    | 23,685 | 12,840 |
const MASSES: [Burning; 10] = [
    (
        "gas of 500 kg of carbon",
        [1_000, 750_000, 16_000],
        MVC,
        GAS_UG,
    ),
    (
        "the largest analysed gas",
        [100_000_000, 1_000_000, 200_000],
        20_000,
        3_664_000_000_000_000_000,
    ),
    (
        "the largest amount, carbon and weight, molar volume 20,001",
        [100_000_000, 1_000_000, 200_000],
        20_001,
        3_663_816_809_159_542_023,
    ),
    (
        "the largest amount, carbon and weight, molar volume 27,000",
        [100_000_000, 1_000_000, 200_000],
        27_000,
        2_714_074_074_074_074_074,
    ),
    (
        "analysed gas of every digit",
        [12_345_678, 765_432, 18_765],
        23_685,
        27_431_667_293_351_673,
    ),
    ("no analysed gas", [0, 750_000, 16_000], MVC, 0),
    ("analysed gas without carbon", [1_000, 0, 16_000], MVC, 0),
    ("gas of weight 1", [1_000, 750_000, 1], MVC, 114_500_000),
    ("gas all of carbon", [3, 1_000_000, 8], MVC, 3_664_000),
    ("gas of the greatest weight", [3, 1, 200_000], MVC, 91_600),
];

/// Of 21,984, which is 6 x 3,664, the CO2 is a sixth of the product of the three. By
/// 24,000, 20,000 and 24,064 every 750th, 625th and 752nd makes 114.5. An odd molar volume
/// has no half: 3,664 times 2,938 is 454 x 23,685 and 11,842 more, times 20,747 it is
/// 3,209 x 23,685 and 11,843 more.
///
/// 99,999,999 x 999,999 x 199,999 is 19,999,879,800,101,199,999, past 64 bits, and a sixth
/// of it 3,333,313,300,016,866,666.5; with 199,997 it is 3,333,279,966,717,199,999.5.
const ROUNDED: [Burning; 22] = [
    ("1/6 goes down to 0", [1, 1, 1], 21_984, 0),
    ("1/3 goes down to 0", [2, 1, 1], 21_984, 0),
    ("a half goes down to 0", [1, 3, 1], 21_984, 0),
    ("2/3 goes up to 1", [1, 1, 4], 21_984, 1),
    ("5/6 goes up to 1", [5, 1, 1], 21_984, 1),
    ("1 stays", [1, 2, 3], 21_984, 1),
    ("1 1/3 goes down", [2, 2, 2], 21_984, 1),
    ("1.5 goes up to the even number", [3, 1, 3], 21_984, 2),
    ("2.5 goes down to the even number", [1, 3, 5], 21_984, 2),
    ("3.5 goes up to the even number", [7, 3, 1], 21_984, 4),
    ("114.5 goes down, 24,000", [1, 750, 1], 24_000, 114),
    ("343.5 goes up, 24,000", [3, 1, 750], 24_000, 344),
    ("572.5 goes down, 24,000", [5, 750, 1], 24_000, 572),
    ("114.5 goes down, 20,000", [25, 25, 1], 20_000, 114),
    ("343.5 goes up, 20,000", [25, 25, 3], 20_000, 344),
    ("114.5 goes down, 24,064", [1, 47, 16], 24_064, 114),
    ("343.5 goes up, 24,064", [3, 47, 16], 24_064, 344),
    (
        "almost a half of an odd molar volume",
        [26, 113, 1],
        23_685,
        454,
    ),
    ("just over a half of one", [20_747, 1, 1], 23_685, 3_210),
    ("the least of all", [1, 1, 1], 27_000, 0),
    (
        "a half past 64 bits goes down to the even number",
        [99_999_999, 999_999, 199_999],
        21_984,
        3_333_313_300_016_866_666,
    ),
    (
        "a half past 64 bits goes up to the even number",
        [99_999_999, 999_999, 199_997],
        21_984,
        3_333_279_966_717_200_000,
    ),
];

fn fuel(mvc: u32) -> FuelLine {
    FuelLine { mvc, ..FUEL_1 }
}

fn of(name: &'static str, unit: Line, gas: Analysed, printed: Vec<Expectation>) -> Sum {
    Sum {
        name,
        unit,
        fuel: fuel(MVC),
        record: gas.line(),
        printed,
    }
}

fn told(method: u64, co2_ug: u64, [ch4_ng, n2o_ng]: [u64; 2]) -> Vec<Expectation> {
    let ledger = if method == 4 { 0 } else { 1 };
    vec![
        Field::Number.is(0),
        Field::Reason.is(0),
        Field::Method.is(method),
        Field::Ledger.is(ledger),
        Field::Co2Ug.is(co2_ug),
        Field::Ch4Ng.is(ch4_ng),
        Field::N2oNg.is(n2o_ng),
    ]
}

/// CH4 and N2O by the default heat, 34,200,000 and 3,420,000 ng per m3.
fn mass((name, [amount, carbon, weight], mvc, co2_ug): Burning) -> Sum {
    let gas = Analysed {
        amount,
        carbon,
        weight,
        ..GAS
    };
    let gases = [34_200_000, 3_420_000].map(|ng| ng * u64::from(amount));
    Sum {
        fuel: fuel(mvc),
        ..of(name, unit(1, false, 2_500), gas, told(3, co2_ug, gases))
    }
}

const HEAT_MEASURED: Analysed = Analysed {
    heat: Some(39_000),
    ..GAS
};

const LOW_35_050: Analysed = Analysed {
    heat: Some(35_050),
    heat_is_low: true,
    ..GAS
};

pub fn sums() -> impl Iterator<Item = Sum> {
    let masses = MASSES.into_iter().chain(ROUNDED).map(mass);
    masses.chain(methods::sums()).chain(refused::sums())
}

#[cfg(test)]
mod tests {
    use super::*;
    use crate::worked::book;
    use second::annual::text;

    #[test]
    fn analysed_gas_is_printed_as_fossil_co2() {
        let printed = "year 2010\nrecords 1\nfossil-co2-kg 1832\nbiomass-co2-kg 0\n\
                       ch4-kg 0\nn2o-kg 0\nco2e-kg 1834\nmust-report no\n";
        assert_eq!(text(&book(&mass(MASSES[0]))), printed);
        let largest = text(&book(&mass(MASSES[1])));
        assert!(largest.contains("\nfossil-co2-kg 3664000000\n"));
        assert!(largest.ends_with("\nmust-report yes\n"));
    }
}
