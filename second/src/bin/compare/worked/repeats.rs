//! Hours and anodes that are uploaded twice, worked by hand: the reason of each record,
//! and what the fossil ledger holds at the end.

mod anodes;

use super::{FUEL_1, PLAIN};
use crate::draft::{dry_unit, hour, unit, with_moisture, Burnt, Draft, Line, FIRST_SET};
use crate::exchange::{Exchange, Outcome};
use crate::expectation::{Expectation, Field};
use crate::job::{self, CHECKPOINT};
use crate::random::Random;
use crate::repeats::{self, of_reason, Judged, COUNTED};

const WET: u16 = 1;
const OTHER_WET: u16 = 2;
const DRY: u16 = 3;
const WITHOUT_MONITOR: u16 = 4;
const UNLISTED: u16 = 5;

/// P7 and P8 of the requirements: their readings, and their CO2 in µg.
const P7: [u32; 2] = repeats::READINGS;
const P7_UG: u64 = 12_950_000_000_000;
const P8: [u32; 2] = [0x3E80_0000, 0x3E80_0000];
const P8_UG: u64 = 32_116;
/// P7 with 12 percent of moisture on a dry unit: 518 x 25,000,000 x 880.
const P7_MOIST_UG: u64 = 11_396_000_000_000;
const NAN: [u32; 2] = [0x7FC0_0000, 0x49F4_2400];

/// Records, each with its reason, and the µg in the fossil ledger after them.
type Upload = (&'static str, Vec<Judged>, u64);

fn of(unit: u16, number: u16, [percent, flow]: [u32; 2]) -> Line {
    hour(unit, number, percent, flow)
}

fn sound_first() -> Vec<Upload> {
    let (p7, p8) = (of(WET, 1, P7), of(WET, 1, P8));
    let mut with_flag = p7;
    with_flag[1] = 1;
    vec![
        ("an hour twice", vec![(p7, 0), (p7, 8)], P7_UG),
        ("with other readings", vec![(p7, 0), (p8, 8)], P7_UG),
        ("three times", vec![(p7, 0), (p8, 8), (p7, 8)], P7_UG),
        (
            "after other hours",
            vec![
                (p7, 0),
                (of(WET, 2, P8), 0),
                (of(OTHER_WET, 1, P8), 0),
                (p7, 8),
            ],
            P7_UG + 2 * P8_UG,
        ),
        (
            "a NaN the second time",
            vec![(p7, 0), (of(WET, 1, NAN), 4)],
            P7_UG,
        ),
        (
            "a flag the second time",
            vec![(p7, 0), (with_flag, 1)],
            P7_UG,
        ),
        (
            "of a dry unit, without moisture the second time",
            vec![(with_moisture(of(DRY, 1, P7), 120), 0), (of(DRY, 1, P7), 8)],
            P7_MOIST_UG,
        ),
    ]
}

/// "Whether or not that earlier one was itself set aside."
fn set_aside_first() -> Vec<Upload> {
    let p7 = of(WET, 1, P7);
    let mut with_fuel = p7;
    with_fuel[4] = 1;
    let mut with_last_byte = p7;
    with_last_byte[31] = 1;
    let too_moist = with_moisture(of(DRY, 1, P7), 1_001);
    vec![
        (
            "a NaN the first time",
            vec![(of(WET, 1, NAN), 4), (p7, 8)],
            0,
        ),
        (
            "a fuel number the first time",
            vec![(with_fuel, 1), (p7, 8)],
            0,
        ),
        (
            "a last byte the first time",
            vec![(with_last_byte, 1), (p7, 8)],
            0,
        ),
        (
            "moisture on a wet unit the first time",
            vec![(with_moisture(p7, 1), 1), (p7, 8)],
            0,
        ),
        (
            "moisture 100.1 percent the first time",
            vec![(too_moist, 4), (of(DRY, 1, P7), 8)],
            0,
        ),
    ]
}

/// The second upload is set aside for the same reason as the first.
fn set_aside_alike() -> Vec<Upload> {
    vec![
        (
            "of a unit without a monitor",
            vec![(of(WITHOUT_MONITOR, 1, P7), 5); 2],
            0,
        ),
        (
            "of a unit that isn't listed",
            vec![(of(UNLISTED, 1, P7), 2); 2],
            0,
        ),
        ("of number 8,785", vec![(of(WET, 8_785, P7), 4); 2], 0),
    ]
}

fn not_the_same() -> Vec<Upload> {
    let p7 = of(WET, 1, P7);
    let burnt = Burnt { unit: WET, ..PLAIN }.line();
    let mut of_no_fuel = burnt;
    of_no_fuel[4] = 0;
    vec![
        (
            "two hours of the same readings",
            vec![(p7, 0), (of(WET, 2, P7), 0)],
            2 * P7_UG,
        ),
        (
            "the same hour of two units",
            vec![(p7, 0), (of(OTHER_WET, 1, P7), 0)],
            2 * P7_UG,
        ),
        (
            "an hour after fuel of its month",
            vec![(burnt, 0), (p7, 0)],
            P7_UG,
        ),
        (
            "an hour after a fuel record with its bytes 2-7",
            vec![(of_no_fuel, 3), (p7, 0)],
            P7_UG,
        ),
    ]
}

fn uploads() -> impl Iterator<Item = Upload> {
    let groups = [
        sound_first(),
        set_aside_first(),
        set_aside_alike(),
        not_the_same(),
    ];
    groups.into_iter().chain(anodes::uploads()).flatten()
}

fn book(records: &[Judged]) -> Vec<u8> {
    let draft = Draft {
        records: records.iter().map(|(line, _)| *line).collect(),
        units: vec![
            unit(WET, true, 2_500),
            unit(OTHER_WET, true, 2_500),
            dry_unit(DRY, 2_500),
            unit(WITHOUT_MONITOR, false, 2_500),
        ],
        fuels: vec![FUEL_1.line()],
        year: 2010,
        warming_set: FIRST_SET,
    };
    draft.bytes()
}

fn told(records: &[Judged], fossil_ug: u64) -> Vec<Expectation> {
    let fossil_kg = Field::FossilKg.is(fossil_ug / 1_000_000_000);
    match records.iter().all(|(_, reason)| *reason == COUNTED) {
        true => vec![Field::Number.is(0), fossil_kg],
        false => repeats::told(records),
    }
}

/// As a checkpoint has it: tonnes, then ng.
fn ledger(ug: u64) -> [u8; 16] {
    const UG_PER_TONNE: u64 = 1_000_000_000_000;
    let parts = [ug / UG_PER_TONNE, ug % UG_PER_TONNE * 1_000];
    let mut bytes = [0; 16];
    for (place, part) in [0, 8].into_iter().zip(parts) {
        bytes[place..place + 8].copy_from_slice(&part.to_le_bytes());
    }
    bytes
}

pub fn run(exchange: &mut Exchange, rng: &mut Random) -> Outcome<()> {
    for (name, records, fossil_ug) in uploads() {
        exchange.case(format!("uploads: {name}"));
        let book = book(&records);
        for (index, (_, reason)) in (0..).zip(&records) {
            job::record(exchange, &book, index, of_reason(*reason))?;
        }
        let junk = rng.junk(CHECKPOINT);
        let start = job::fresh(exchange, &book, &junk)?;
        let end = job::wake(exchange, &book, &start.output, u32::MAX, &junk)?;
        let holds = end.output[16..32] == ledger(fossil_ug);
        exchange.state(holds, "second's fossil ledger isn't the one worked by hand")?;
        let report = job::report_frame(&book, &end.output, &[]);
        exchange.hold(&report, told(&records, fossil_ug))?;
    }
    Ok(())
}

#[cfg(test)]
mod tests {
    use super::*;
    use second::annual::text;
    use second::answer::one_record;

    #[test]
    fn second_gives_every_worked_reason() {
        for (name, records, _) in uploads() {
            let book = book(&records);
            for (index, (_, reason)) in (0..).zip(&records) {
                let told = one_record(&book, index)[1];
                assert_eq!(u64::from(told), *reason, "{name}, record {index}");
            }
        }
    }

    #[test]
    fn a_repeat_is_printed_with_its_reason() {
        let (_, twice, _) = &sound_first()[0];
        assert_eq!(text(&book(twice)), "refused 41 record 1 reason 8\n");
        let (_, nan_first, _) = &set_aside_first()[0];
        assert_eq!(text(&book(nan_first)), "refused 41 record 0 reason 4\n");
        let (_, two_units, _) = &not_the_same()[1];
        assert!(text(&book(two_units)).contains("\nfossil-co2-kg 25900\n"));
    }
}
