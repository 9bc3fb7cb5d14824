//! Every moisture from 0 to 1,000, one past it, and others that only a program
//! which reads one byte or takes a sign would believe, on every sort of unit.

use super::{counted, held, set_aside, DRY, PLAIN, UNLISTED, WET};
use crate::draft::{hour, with_moisture, MOST_MOISTURE};
use crate::exchange::{Exchange, Outcome};
use crate::expectation::Expectation;
use crate::random::Random;

/// 12.5 percent x 100,000.1875 scf/h is 1,250,002.34375.
const READINGS: [u32; 2] = [0x4148_0000, 0x47C3_5018];
const PRODUCT_IN_32NDS: u64 = 40_000_075;

pub fn run(exchange: &mut Exchange, rng: &mut Random) -> Outcome<()> {
    let units = [
        (DRY, "a dry unit"),
        (WET, "a wet unit"),
        (PLAIN, "a unit without a monitor"),
        (UNLISTED, "a unit that isn't listed"),
    ];
    for (unit, name) in units {
        exchange.case(format!("every moisture and others past it, {name}"));
        let [percent, flow] = READINGS;
        let hours: Vec<_> = moistures()
            .map(|moisture| {
                let line = with_moisture(hour(unit, 8_784, percent, flow), moisture);
                (line, expected(unit, moisture))
            })
            .collect();
        held(exchange, rng, &hours)?;
    }
    Ok(())
}

/// Past 1,001: those whose lower byte is 0, 1,000 less than 2^16, and the ends
/// of what 15 and 16 bits hold.
fn moistures() -> impl Iterator<Item = u16> {
    let upper_byte_alone = (4..=255).map(|byte| byte << 8);
    let others = [64_536, 0x7FFF, u16::MAX - 1, u16::MAX];
    (0..=MOST_MOISTURE + 1)
        .chain(upper_byte_alone)
        .chain(others)
}

fn expected(unit: u16, moisture: u16) -> Vec<Expectation> {
    match (unit, moisture) {
        (UNLISTED, _) => set_aside(2),
        (WET | PLAIN, 1..) => set_aside(1),
        (_, 1_001..) => set_aside(4),
        (PLAIN, _) => set_aside(5),
        _ => counted(r(1_000 - moisture)),
    }
}

/// In 32nds; the multiples that have 16 but not 32 as a factor make halves.
fn r(multiple: u16) -> u64 {
    let product = PRODUCT_IN_32NDS * u64::from(multiple);
    let (whole, rest) = (product / 32, product % 32);
    whole + u64::from(rest > 16 || (rest == 16 && whole % 2 == 1))
}
