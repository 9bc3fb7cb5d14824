//! What was compared of analysed gas: records that count, what alone sets others aside, how
//! their CO2 is rounded, and molar volumes in fuel lines.

mod counted;
mod fuel_lines;
mod gas;
mod set_aside;

use std::ops::Range;

use super::repeats::asked::Asked;
use super::rounding::{way, Way, WAYS};
use super::{Made, Question, Rows};
use crate::draft::LINE;
use counted::COUNTED;
use fuel_lines::FuelLineCounts;
use gas::Gas;
use set_aside::SET_ASIDE;

type Row = (&'static str, fn(&Gas) -> bool);

/// The ways to round that products past 64 bits have.
const WAYS_PAST_64_BITS: [Way; 5] = [
    Way::NothingToRound,
    Way::Down,
    Way::Up,
    Way::HalfToEvenBelow,
    Way::HalfToEvenAbove,
];

const FLAGS: usize = 8;
const HEAT: Range<usize> = 12..16;
const AFTER_WEIGHT: Range<usize> = 24..LINE;

/// Rows, and how often each was so.
struct Tally {
    rows: &'static [Row],
    counts: Vec<u64>,
}

pub struct AnalysedGasCounts {
    counted: Tally,
    set_aside: Tally,
    /// By bit: one flag alone, of those that alone are wrong.
    flags: [u64; FLAGS],
    /// By place: one byte alone that must be 0.
    must_be_0: [u64; LINE],
    /// By way, of products within 64 bits and past them.
    ways: [[u64; WAYS.len()]; 2],
    fuel_lines: FuelLineCounts,
}

impl Default for AnalysedGasCounts {
    fn default() -> AnalysedGasCounts {
        AnalysedGasCounts {
            counted: Tally::of(&COUNTED),
            set_aside: Tally::of(&SET_ASIDE),
            flags: Default::default(),
            must_be_0: Default::default(),
            ways: Default::default(),
            fuel_lines: FuelLineCounts::default(),
        }
    }
}

impl AnalysedGasCounts {
    /// Counts a call of whatever sort, before what it made is the latest.
    pub fn count(&mut self, question: &Question, number: u8, latest: Option<&Made>) {
        self.fuel_lines.count(question, number, latest);
    }

    /// Counts a record of analysed gas.
    pub fn count_record(&mut self, asked: &Asked) {
        let gas = Gas::of(asked);
        if asked.reason == 0 {
            self.counted.add(&gas);
            self.count_way(&gas);
        } else {
            self.set_aside.add(&gas);
        }
        if asked.reason == 1 {
            self.count_form(&gas);
        }
    }

    /// Of a record that gives CO2.
    fn count_way(&mut self, gas: &Gas) {
        if let Some(quotient) = gas.co2_ug() {
            let is_past = usize::from(gas.is_past_64_bits());
            self.ways[is_past][way(quotient) as usize] += 1;
        }
    }

    fn count_form(&mut self, gas: &Gas) {
        let line = gas.asked.line();
        for (bit, count) in self.flags.iter_mut().enumerate() {
            let is_it = line[1] == 1 << bit && gas.is_for(1, |line| line[1] = 0);
            *count += u64::from(is_it);
        }
        for place in HEAT.chain(AFTER_WEIGHT) {
            let is_it = line[place] != 0 && gas.is_for(1, |line| line[place] = 0);
            self.must_be_0[place] += u64::from(is_it);
        }
    }

    pub fn table(&self) -> Vec<(&'static str, Rows)> {
        // Bit 0 is no fault: without heat beside it, it is the heat that is wrong.
        let flags = self.flags.iter().enumerate().skip(1);
        let flags = flags.map(|(bit, count)| (format!("1, flag bit {bit} alone"), *count));
        let bytes = HEAT.chain(AFTER_WEIGHT);
        let bytes = bytes.map(|place| (format!("1, byte {place}"), self.must_be_0[place]));
        let mut table = vec![
            ("analysed gas counted,", self.counted.rows()),
            ("analysed gas with reason", self.set_aside.rows()),
            ("analysed gas with reason", flags.chain(bytes).collect()),
            ("analysed gas,", self.way_rows(0, |_| true)),
            (
                "analysed gas past 64 bits,",
                self.way_rows(1, |way| WAYS_PAST_64_BITS.contains(&way)),
            ),
        ];
        table.extend(self.fuel_lines.table());
        table
    }

    fn way_rows(&self, is_past: usize, has: impl Fn(Way) -> bool) -> Rows {
        let ways = WAYS.into_iter().filter(|(way, _)| has(*way));
        ways.map(|(way, name)| (name.to_string(), self.ways[is_past][way as usize]))
            .collect()
    }
}

impl Tally {
    fn of(rows: &'static [Row]) -> Tally {
        Tally {
            rows,
            counts: vec![0; rows.len()],
        }
    }

    fn add(&mut self, gas: &Gas) {
        for (count, (_, is_so)) in self.counts.iter_mut().zip(self.rows) {
            *count += u64::from(is_so(gas));
        }
    }

    fn rows(&self) -> Rows {
        let names = self.rows.iter().map(|(name, _)| name.to_string());
        names.zip(self.counts.iter().copied()).collect()
    }
}
