//! Molar volumes about the ends of their range on fuel lines of every kind and class, with
//! other lines wrong beside them: 23 comes after 20, 21 and 22.

use super::super::every_call::Checkpoints;
use super::{FUEL, KINDS_AND_CLASSES};
use crate::draft::{Draft, FuelLine, LEAST_MVC, LINE, MOST_MVC, MVC_PLACE};
use crate::exchange::{Exchange, Outcome};
use crate::random::Random;
use crate::sample::small_book;

/// Also some whose lower bytes alone, or upper ones, would be in range.
const VOLUMES: [u32; 26] = [
    0,
    1,
    2,
    255,
    256,
    10_000,
    LEAST_MVC - 2,
    LEAST_MVC - 1,
    LEAST_MVC,
    LEAST_MVC + 1,
    22_414,
    23_685,
    24_064,
    MOST_MVC - 1,
    MOST_MVC,
    MOST_MVC + 1,
    MOST_MVC + 2,
    32_767,
    32_768,
    65_535,
    65_536,
    65_536 + 24_000,
    24_000 << 8,
    24_000 << 16,
    1 << 31,
    u32::MAX,
];

/// Where a byte makes another line wrong, and the number that comes first.
type Beside = (fn(&Draft) -> usize, u64);

const BESIDE: [Beside; 2] = [
    (|draft| LINE * (draft.records.len() + 1) - 1, 22),
    (|draft| draft.bytes().len() - 1, 21),
];

pub fn run(exchange: &mut Exchange, rng: &mut Random) -> Outcome<()> {
    exchange.case("molar volumes of every kind and class of fuel, other lines wrong beside them");
    let checkpoints = Checkpoints::of_small_book(exchange, rng)?;
    for place in 0..small_book().fuels.len() {
        for (kind, class) in KINDS_AND_CLASSES {
            for mvc in VOLUMES {
                let draft = listing(place, kind, class, mvc);
                every_number(exchange, rng, &checkpoints, &draft, mvc)?;
            }
        }
    }
    exchange.case("the bytes after the molar volume");
    for mvc in [0, LEAST_MVC, MOST_MVC] {
        for place in MVC_PLACE + 4..LINE {
            for value in [1, 0x80, 0xFF] {
                let mut draft = listing(0, 3, 1, mvc);
                draft.fuels[0][place] = value;
                checkpoints.every_call(exchange, rng, &draft.bytes(), 23)?;
            }
        }
    }
    Ok(())
}

/// The small book with such a fuel line at a place.
fn listing(place: usize, kind: u8, class: u8, mvc: u32) -> Draft {
    let fuel = FuelLine {
        number: 1 + place as u16,
        kind,
        class,
        mvc,
        ..FUEL
    };
    let mut draft = small_book();
    draft.fuels[place] = fuel.line();
    draft
}

fn every_number(
    exchange: &mut Exchange,
    rng: &mut Random,
    checkpoints: &Checkpoints,
    draft: &Draft,
    mvc: u32,
) -> Outcome<()> {
    let is_sound = mvc == 0 || (LEAST_MVC..=MOST_MVC).contains(&mvc);
    let number = if is_sound { 0 } else { 23 };
    let book = draft.bytes();
    checkpoints.every_call(exchange, rng, &book, number)?;
    for (place, number) in BESIDE {
        let mut book = book.clone();
        book[place(draft)] = 1;
        checkpoints.every_call(exchange, rng, &book, number)?;
    }
    checkpoints.every_call(exchange, rng, &book[1..], 20)
}
