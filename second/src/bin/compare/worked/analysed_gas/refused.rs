//! What a record of analysed gas is set aside for, and a book refused for its molar
//! volume.

use super::{fuel, of, GAS, HEAT_MEASURED, LOW_35_050, MVC};
use crate::draft::{unit, Analysed, FuelLine, Line, CARBON_MEASURED, HEAT_IS_LOW};
use crate::expectation::Field;
use crate::worked::{set_aside, Sum};

fn small() -> Line {
    unit(1, false, 2_500)
}

/// One value past its range, and the others within theirs.
fn out_of_range() -> Vec<Sum> {
    let heat = |heat| Analysed { heat, ..GAS };
    let low = |heat| Analysed { heat, ..LOW_35_050 };
    let gas = |amount, carbon, weight| Analysed {
        amount,
        carbon,
        weight,
        ..GAS
    };
    let faults = [
        ("analysed gas of month 0", Analysed { month: 0, ..GAS }),
        ("analysed gas of month 13", Analysed { month: 13, ..GAS }),
        ("100,000,001 m3 of analysed gas", gas(100_000_001, 1, 1)),
        ("carbon 1,000,001 mg per kg", gas(1, 1_000_001, 1)),
        ("carbon 4,000,000 mg per kg", gas(1, 4_000_000, 1)),
        ("molecular weight 0", gas(1, 1, 0)),
        ("molecular weight 200,001", gas(1, 1, 200_001)),
        ("analysed gas, heat 0", heat(Some(0))),
        ("analysed gas, heat 200,001", heat(Some(200_001))),
        ("analysed gas, low value 0", low(Some(0))),
        ("analysed gas, low value 180,001", low(Some(180_001))),
    ];
    let sums = faults.map(|(name, gas)| of(name, small(), gas, set_aside(4)));
    sums.into_iter().collect()
}

/// Fuels of which there is no carbon by mass, on a unit with a monitor too.
fn of_other_fuels() -> Vec<Sum> {
    let fuels = [
        ("analysed gas without a molar volume", 3, 1, 0),
        ("analysed class 0 gas without a molar volume", 3, 0, 0),
        ("an analysed liquid", 2, 0, MVC),
        ("an analysed distillate oil", 2, 2, MVC),
        ("an analysed solid", 1, 0, MVC),
        ("analysed biomass", 1, 3, MVC),
    ];
    let sums = fuels.into_iter().flat_map(|(name, kind, class, mvc)| {
        [small(), unit(1, true, 2_500)].map(|unit| Sum {
            fuel: FuelLine {
                kind,
                class,
                ..fuel(mvc)
            },
            ..of(name, unit, GAS, set_aside(4))
        })
    });
    let low_of_class_0 = Sum {
        fuel: FuelLine {
            class: 0,
            ..fuel(MVC)
        },
        ..of(
            "analysed class 0 gas, low value",
            small(),
            LOW_35_050,
            set_aside(4),
        )
    };
    sums.chain([low_of_class_0]).collect()
}

fn in_bad_form() -> Vec<Sum> {
    let flag = |name, flag: u8| (name, 1, flag);
    let faults = [
        flag("analysed gas with the carbon flag", CARBON_MEASURED),
        flag("analysed gas, a low value without heat", HEAT_IS_LOW),
        flag("analysed gas with flag bit 3", 8),
        flag("analysed gas with flag bit 7", 0x80),
        ("analysed gas, heat without its flag", 12, 1),
        ("analysed gas with a byte after the weight", 24, 1),
        ("analysed gas with a last byte", 31, 1),
    ];
    let sums = faults.map(|(name, place, value)| {
        let mut sum = of(name, small(), GAS, set_aside(1));
        sum.record[place] = value;
        sum
    });
    sums.into_iter().collect()
}

fn in_vain() -> Vec<Sum> {
    let of_fuel_2 = Analysed { fuel: 2, ..GAS };
    let without_heat = |name, unit| Sum {
        fuel: FuelLine {
            heat: 0,
            ..fuel(MVC)
        },
        ..of(name, unit, GAS, set_aside(7))
    };
    vec![
        of(
            "analysed gas on another unit",
            unit(2, false, 2_500),
            GAS,
            set_aside(2),
        ),
        of(
            "analysed gas of another fuel",
            small(),
            of_fuel_2,
            set_aside(3),
        ),
        without_heat("analysed gas, no heat anywhere", small()),
        without_heat("analysed gas, no heat, wet unit", unit(1, true, 2_500)),
    ]
}

fn of_molar_volumes() -> Vec<Sum> {
    let volumes = [
        ("molar volume 1", 1, 23),
        ("molar volume 19,999", 19_999, 23),
        ("molar volume 20,000", 20_000, 0),
        ("molar volume 27,000", 27_000, 0),
        ("molar volume 27,001", 27_001, 23),
    ];
    let sums = volumes.map(|(name, mvc, number)| Sum {
        fuel: fuel(mvc),
        ..of(name, small(), HEAT_MEASURED, vec![Field::Number.is(number)])
    });
    sums.into_iter().collect()
}

pub fn sums() -> impl Iterator<Item = Sum> {
    let set_aside = [out_of_range(), of_other_fuels(), in_bad_form(), in_vain()];
    set_aside.into_iter().flatten().chain(of_molar_volumes())
}

#[cfg(test)]
mod tests {
    use super::*;
    use crate::worked::book;
    use second::annual::text;

    #[test]
    fn analysed_gas_set_aside_is_printed_with_its_reason() {
        let printed = "refused 41 record 0 reason 4\n";
        assert_eq!(text(&book(&out_of_range()[0])), printed);
        let printed = "refused 41 record 0 reason 1\n";
        assert_eq!(text(&book(&in_bad_form()[0])), printed);
        assert_eq!(text(&book(&of_molar_volumes()[0])), "refused 23\n");
    }
}
