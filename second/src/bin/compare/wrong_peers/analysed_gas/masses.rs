//! What the CO2 of analysed gas is.

use second::answer::{Answer, Frame};
use second::bytes::u32_at;
use second::record::{judge, Addition};

use super::{nearest, of_gas, with_ug, Factors};
use crate::draft::{LINE, MVC_PLACE};

pub fn turns_carbon_by_mass_into_co2_by_44_over_12(frame: &Frame) -> Answer {
    with_ug(frame, |gas| {
        nearest(gas.product() / 3_664 * 44_000, 12 * gas.mvc)
    })
}

pub fn turns_carbon_by_mass_into_co2_by_3_667(frame: &Frame) -> Answer {
    with_ug(frame, |gas| nearest(gas.product() / 3_664 * 3_667, gas.mvc))
}

/// That is, takes its carbon for carbon per m3.
pub fn forgets_weight_and_volume(frame: &Frame) -> Answer {
    with_ug(frame, |gas| gas.amount * gas.carbon * 3_664)
}

pub fn forgets_the_molecular_weight(frame: &Frame) -> Answer {
    with_ug(frame, |gas| {
        nearest(gas.amount * gas.carbon * 3_664, gas.mvc)
    })
}

pub fn forgets_the_carbon_by_mass(frame: &Frame) -> Answer {
    with_ug(frame, |gas| {
        nearest(gas.amount * gas.weight * 3_664 * 1_000_000, gas.mvc)
    })
}

/// 24,060 l/kmol, as at 20 °C.
pub fn knows_one_molar_volume(frame: &Frame) -> Answer {
    with_ug(frame, |gas| nearest(gas.product(), 24_060))
}

/// 22,414 l/kmol, as at 0 °C.
pub fn takes_the_molar_volume_at_0_degrees(frame: &Frame) -> Answer {
    with_ug(frame, |gas| nearest(gas.product(), 22_414))
}

pub fn multiplies_by_the_molar_volume(frame: &Frame) -> Answer {
    with_ug(frame, |gas| {
        nearest(gas.amount * gas.carbon * 3_664 * gas.mvc, gas.weight)
    })
}

/// With the molar volume of the fuel line that `wrong` names by its place, from its own
/// and from how many there are, if that line has one.
fn of_another_line(frame: &Frame, wrong: impl Fn(usize, usize) -> usize) -> Answer {
    of_gas(frame, |book, line| {
        let judged = judge(book, line)?;
        let trailer = frame.book.len() - LINE;
        let start = u32_at(&frame.book[trailer..], 12) as usize;
        let fuels: Vec<&[u8]> = frame.book[start..trailer].chunks(LINE).collect();
        let own = fuels.iter().position(|fuel| fuel[..2] == line[4..6]);
        let other = fuels[wrong(own.expect("the record counts"), fuels.len())];
        let gas = Factors::of(line, u32_at(other, MVC_PLACE));
        Ok(match judged.method {
            3 if gas.mvc > 0 => Addition {
                co2_ug: nearest(gas.product(), gas.mvc) as u64,
                ..judged
            },
            _ => judged,
        })
    })
}

pub fn takes_the_first_lines_molar_volume(frame: &Frame) -> Answer {
    of_another_line(frame, |_, _| 0)
}

pub fn takes_the_last_lines_molar_volume(frame: &Frame) -> Answer {
    of_another_line(frame, |_, count| count - 1)
}

pub fn takes_the_next_lines_molar_volume(frame: &Frame) -> Answer {
    of_another_line(frame, |own, count| (own + 1) % count)
}

pub fn takes_the_product_in_64_bits(frame: &Frame) -> Answer {
    with_ug(frame, |gas| {
        nearest(u128::from(gas.product() as u64), gas.mvc)
    })
}

/// That is, stops at the greatest number they hold.
pub fn fills_64_bits_with_the_product(frame: &Frame) -> Answer {
    with_ug(frame, |gas| {
        nearest(gas.product().min(u128::from(u64::MAX)), gas.mvc)
    })
}

/// The product without 3,664 passes them, too.
pub fn takes_all_but_3_664_in_64_bits(frame: &Frame) -> Answer {
    with_ug(frame, |gas| {
        let product = (gas.product() / 3_664) as u64;
        nearest(u128::from(product) * 3_664, gas.mvc)
    })
}

pub fn takes_amount_by_carbon_in_32_bits(frame: &Frame) -> Answer {
    with_ug(frame, |gas| {
        let product = (gas.amount * gas.carbon) as u32;
        nearest(u128::from(product) * gas.weight * 3_664, gas.mvc)
    })
}

pub fn takes_analysed_gas_in_double_precision(frame: &Frame) -> Answer {
    with_ug(frame, |gas| {
        (gas.product() as f64 / gas.mvc as f64).round_ties_even() as u128
    })
}
