//! Programs that are wrong about moisture.

use second::answer::{Answer, Frame};
use second::book::Book;
use second::bytes::{u16_at, u32_at};
use second::hour::{moisture, product};
use second::lines::Monitor;
use second::quotient::Quotient;
use second::record::{judge, Addition, Judged, Reason};
use second::single::{product_of, usable_reading};

use super::records::judging;
use crate::draft::{put, MOISTURE_PLACE, MOST_MOISTURE};

const HOUR: u8 = 2;

/// Hours judged wrongly, whose unit has this monitor, or isn't listed.
fn of_hours(
    frame: &Frame,
    monitors: &[Option<Monitor>],
    wrong: impl Fn(&Book, &[u8]) -> Judged,
) -> Answer {
    judging(frame, |book, line| {
        let monitor = book.unit(u16_at(line, 2)).map(|unit| unit.monitor);
        match line[0] == HOUR && monitors.contains(&monitor) {
            true => wrong(book, line),
            false => judge(book, line),
        }
    })
}

const UNLISTED: Option<Monitor> = None;
const PLAIN: Option<Monitor> = Some(Monitor::None);
const WET: Option<Monitor> = Some(Monitor::Wet);
const DRY: Option<Monitor> = Some(Monitor::Dry);

fn with_moisture(line: &[u8], moisture: u16) -> Vec<u8> {
    let mut changed = line.to_vec();
    put(&mut changed, MOISTURE_PLACE, &moisture.to_le_bytes());
    changed
}

/// Hours of dry units that count, with a wrong R of their line.
fn with_r(frame: &Frame, wrong: impl Fn(&[u8]) -> u64) -> Answer {
    of_hours(frame, &[DRY], |book, line| {
        let judged = judge(book, line)?;
        Ok(Addition {
            co2_ug: 518 * wrong(line),
            ..judged
        })
    })
}

/// R rounded from another multiple than the right one.
fn with_multiple(frame: &Frame, wrong: impl Fn(u16) -> u16) -> Answer {
    with_r(frame, |line| r_of(wrong(moisture(line)), line))
}

fn r_of(multiple: u16, line: &[u8]) -> u64 {
    let reading = |place, most| usable_reading(u32_at(line, place), most);
    let percent = reading(8, 100).expect("the hour counts");
    let flow = reading(12, 1_000_000_000).expect("the hour counts");
    product_of(multiple, percent, flow).nearest()
}

pub fn overlooks_moisture_on_a_dry_unit(frame: &Frame) -> Answer {
    with_multiple(frame, |_| 1_000)
}

/// That is, takes 100 - moisture, whose tenths are as many percent to it.
pub fn takes_tenths_of_a_percent_for_percents(frame: &Frame) -> Answer {
    with_multiple(frame, |moisture| 1_000 - 10 * moisture.min(100))
}

pub fn multiplies_by_the_moisture(frame: &Frame) -> Answer {
    with_multiple(frame, |moisture| moisture)
}

/// As if the readings were wet and dry ones were wanted.
pub fn divides_by_what_is_dry(frame: &Frame) -> Answer {
    with_r(frame, |line| {
        let dry = 1_000 - moisture(line);
        r_of(1_000, line) * 1_000 / u64::from(dry.max(1))
    })
}

/// R of 1,000 first, and then so many thousandths of it.
pub fn rounds_r_before_the_moisture(frame: &Frame) -> Answer {
    with_r(frame, |line| {
        let thousandths = r_of(1_000, line) * u64::from(1_000 - moisture(line));
        let (whole, rest) = (thousandths / 1_000, thousandths % 1_000);
        whole + u64::from(rest > 500 || (rest == 500 && whole % 2 == 1))
    })
}

/// The percent becomes a wet one, as a single, before it meets the flow.
pub fn corrects_the_percent_in_single_precision(frame: &Frame) -> Answer {
    with_r(frame, |line| {
        let single = |place: usize| f32::from_bits(u32_at(line, place));
        let dry = f32::from(1_000 - moisture(line)) / 1_000.0;
        let product = f64::from(single(8) * dry) * f64::from(single(12));
        (1_000.0 * product).round_ties_even() as u64
    })
}

/// R of an odd multiple, rounded up where `up` holds.
fn rounding_odd_multiples(frame: &Frame, up: impl Fn(Quotient) -> bool) -> Answer {
    with_r(frame, |line| {
        let product = product(line).expect("the hour counts");
        match moisture(line) % 2 {
            0 => product.nearest(),
            _ => product.whole as u64 + u64::from(up(product)),
        }
    })
}

pub fn rounds_halves_of_an_odd_multiple_upward(frame: &Frame) -> Answer {
    rounding_odd_multiples(frame, |Quotient { rest, one, .. }| 2 * rest >= one)
}

pub fn rounds_halves_of_an_odd_multiple_downward(frame: &Frame) -> Answer {
    rounding_odd_multiples(frame, |Quotient { rest, one, .. }| 2 * rest > one)
}

pub fn never_rounds_r_of_an_odd_multiple_up(frame: &Frame) -> Answer {
    rounding_odd_multiples(frame, |_| false)
}

/// Hours judged by another moisture than theirs, on any unit.
fn by_moisture(frame: &Frame, wrong: impl Fn(u16) -> u16) -> Answer {
    of_hours(frame, &[UNLISTED, PLAIN, WET, DRY], |book, line| {
        judge(book, &with_moisture(line, wrong(moisture(line))))
    })
}

pub fn reads_moisture_from_one_byte(frame: &Frame) -> Answer {
    by_moisture(frame, |moisture| moisture & 0xFF)
}

pub fn reads_moisture_upper_byte_first(frame: &Frame) -> Answer {
    by_moisture(frame, u16::swap_bytes)
}

/// So that bytes 18 and 19 make it too great.
pub fn reads_moisture_from_four_bytes(frame: &Frame) -> Answer {
    of_hours(frame, &[UNLISTED, PLAIN, WET, DRY], |book, line| {
        if line[18..20] == [0, 0] {
            return judge(book, line);
        }
        let mut too_great = with_moisture(line, u16::MAX);
        too_great[18..20].fill(0);
        judge(book, &too_great)
    })
}

/// Moisture past 1,000 with which an hour of a dry unit counts all the same.
fn believing(frame: &Frame, most: u16, multiple: impl Fn(u16) -> u16) -> Answer {
    of_hours(frame, &[DRY], |book, line| {
        let moisture = moisture(line);
        if !(MOST_MOISTURE + 1..=most).contains(&moisture) {
            return judge(book, line);
        }
        let without = judge(book, &with_moisture(line, 0))?;
        Ok(Addition {
            co2_ug: 518 * r_of(multiple(moisture), line),
            ..without
        })
    })
}

pub fn takes_moisture_past_1_000_for_1_000(frame: &Frame) -> Answer {
    believing(frame, u16::MAX, |_| 0)
}

/// The limit forgotten, and 1,000 - moisture then what 16 bits make of it.
pub fn lets_the_multiple_wrap_around(frame: &Frame) -> Answer {
    believing(frame, u16::MAX, |moisture| 1_000u16.wrapping_sub(moisture))
}

pub fn lets_moisture_reach_1_001(frame: &Frame) -> Answer {
    believing(frame, 1_001, |_| 0)
}

pub fn lets_moisture_reach_only_999(frame: &Frame) -> Answer {
    of_hours(frame, &[DRY], |book, line| {
        let judged = judge(book, line)?;
        match moisture(line) {
            MOST_MOISTURE => Err(Reason::OutOfRange),
            _ => Ok(judged),
        }
    })
}

/// What an hour is if its unit is taken for a dry one.
fn as_if_dry(book: &Book, line: &[u8]) -> Judged {
    match (judge(book, &with_moisture(line, 0)), product(line)) {
        (Ok(judged), Some(product)) => Ok(Addition {
            co2_ug: 518 * product.nearest(),
            ..judged
        }),
        (Ok(_) | Err(Reason::HourWithoutMonitor), None) => Err(Reason::OutOfRange),
        (judged, _) => judged,
    }
}

/// That is, takes every monitor for a dry one.
pub fn looks_for_the_dry_flag_in_bit_0(frame: &Frame) -> Answer {
    of_hours(frame, &[WET], as_if_dry)
}

pub fn takes_a_unit_without_a_monitor_for_dry(frame: &Frame) -> Answer {
    of_hours(frame, &[PLAIN], as_if_dry)
}

pub fn overlooks_moisture_on_a_wet_unit(frame: &Frame) -> Answer {
    of_hours(frame, &[WET, PLAIN], |book, line| {
        judge(book, &with_moisture(line, 0))
    })
}

/// An hour with moisture, right but for it, whose unit is not a dry one.
fn beside_moisture(
    frame: &Frame,
    monitors: &[Option<Monitor>],
    wrong: impl Fn(u16, Judged) -> Judged,
) -> Answer {
    of_hours(frame, monitors, |book, line| {
        match (moisture(line), judge(book, &with_moisture(line, 0))) {
            (0, judged) | (_, judged @ Err(Reason::Form)) => judged,
            (moisture, judged) => wrong(moisture, judged),
        }
    })
}

/// For reason 1, before 2.
pub fn asks_for_moisture_before_the_unit(frame: &Frame) -> Answer {
    beside_moisture(frame, &[UNLISTED], |_, _| Err(Reason::Form))
}

/// For reason 4, before the wet unit's 1.
pub fn asks_for_the_range_of_moisture_before_the_flag(frame: &Frame) -> Answer {
    beside_moisture(frame, &[WET, PLAIN], |moisture, _| match moisture {
        ..=MOST_MOISTURE => Err(Reason::Form),
        _ => Err(Reason::OutOfRange),
    })
}

/// That is, after 4 and 5.
pub fn asks_for_moisture_on_a_wet_unit_last(frame: &Frame) -> Answer {
    beside_moisture(frame, &[WET, PLAIN], |_, judged| {
        judged.and(Err(Reason::Form))
    })
}

pub fn takes_moisture_on_a_wet_unit_for_out_of_range(frame: &Frame) -> Answer {
    beside_moisture(frame, &[WET, PLAIN], |_, _| Err(Reason::OutOfRange))
}
