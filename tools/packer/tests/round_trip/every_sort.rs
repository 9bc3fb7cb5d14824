//! That the random books are of every sort: where they are poor, what they pass says little.

use std::collections::HashSet;

use crate::each_random_book;
use crate::random_books::LONG;

#[test]
fn random_books_are_of_every_sort() {
    let (mut no_records, mut full, mut no_units, mut most_units, mut most_fuels) = (0, 0, 0, 0, 0);
    let starts = [
        "delivery ",
        "gas-delivery ",
        "hour ",
        "anodes ",
        "raw 01",
        "raw 02",
        "raw 03",
        "raw 04",
        "raw FF",
    ];
    let mut records = [0; 9];
    let mut warmings = [0; 2];
    each_random_book(|sample, _| {
        warmings[usize::from(sample.warming)] += 1;
        no_records += u32::from(sample.records.is_empty());
        full += u32::from(sample.bytes().len() == LONG);
        no_units += u32::from(sample.units.is_empty());
        most_units += u32::from(sample.units.len() == 64);
        most_fuels += u32::from(sample.fuels.len() == 64);
        for (count, start) in records.iter_mut().zip(starts) {
            let said = sample.records.iter();
            *count += said.filter(|said| said.words.starts_with(start)).count();
        }
    });
    let books = [no_records, full, no_units, most_units, most_fuels];
    assert!(books.iter().all(|&count| count >= 20), "{books:?}");
    assert!(records.iter().all(|&count| count >= 1000), "{records:?}");
    assert!(warmings.iter().all(|&count| count >= 1000), "{warmings:?}");
}

#[test]
fn random_units_and_hours_are_of_every_sort() {
    let (mut monitors, mut moistures) = ([0; 3], [0; 3]);
    each_random_book(|sample, _| {
        for (count, flags) in monitors.iter_mut().zip([0, 1, 3]) {
            let units = sample.units.iter();
            *count += units.filter(|said| said.line[2] == flags).count();
        }
        for said in sample.records {
            let tenths = u16::from_le_bytes([said.line[16], said.line[17]]);
            let sort = usize::from(tenths > 0) + usize::from(tenths > 1_000);
            moistures[sort] += u32::from(said.words.starts_with("hour "));
        }
    });
    assert!(monitors.iter().all(|&count| count >= 1000), "{monitors:?}");
    assert!(
        moistures.iter().all(|&count| count >= 1000),
        "{moistures:?}"
    );
}

#[test]
fn random_fuels_of_every_kind_have_a_molar_volume_or_none() {
    let mut fuels = [[0; 2]; 3];
    each_random_book(|sample, _| {
        for said in sample.fuels {
            let kind = usize::from(said.line[2]) - 1;
            let is_told = said.line[20..24] != [0; 4];
            fuels[kind][usize::from(is_told)] += 1;
        }
    });
    assert!(
        fuels.iter().flatten().all(|&count| count >= 1000),
        "{fuels:?}"
    );
}

#[test]
fn random_anodes_are_of_every_sort() {
    let [mut sound, mut too_much, mut sum_too_large, mut sum_past_16_bits] = [0; 4];
    each_random_book(|sample, _| {
        let anodes = sample.records.iter();
        for said in anodes.filter(|said| said.words.starts_with("anodes ")) {
            let impurities =
                [16, 18, 20].map(|at| u16::from_le_bytes([said.line[at], said.line[at + 1]]));
            let sum: u32 = impurities.iter().map(|&impurity| u32::from(impurity)).sum();
            let is_each_sound = impurities.iter().all(|&impurity| impurity <= 10_000);
            sound += u32::from(sum <= 10_000);
            too_much += u32::from(!is_each_sound);
            sum_too_large += u32::from(is_each_sound && sum > 10_000);
            sum_past_16_bits += u32::from(sum > u16::MAX.into());
        }
    });
    let counts = [sound, too_much, sum_too_large, sum_past_16_bits];
    assert!(counts.iter().all(|&count| count >= 500), "{counts:?}");
}

/// Hours and anodes are sent again as they were, or with other values.
#[test]
fn random_books_have_records_that_were_sent_before() {
    for kind in [2, 4] {
        let (mut whole, mut with_other_values) = (0, 0);
        each_random_book(|sample, _| {
            let (mut lines, mut named) = (HashSet::new(), HashSet::new());
            let sent = sample.records.iter().map(|said| said.line);
            for line in sent.filter(|line| line[0] == kind) {
                let is_repeat = !named.insert([line[2], line[3], line[6], line[7]]);
                let is_whole = !lines.insert(line);
                whole += u32::from(is_whole);
                with_other_values += u32::from(is_repeat && !is_whole);
            }
        });
        let counts = [whole, with_other_values];
        assert!(counts.iter().all(|&count| count >= 1000), "{counts:?}");
    }
}
