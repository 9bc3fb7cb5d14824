//! Random sound books, as bytes, as canonical text and as a text that a person might write.

use crate::dice::Dice;
use crate::random_lines::{fuel, unit, Said, LINE};
use crate::random_records::SORTS;

pub const LONGEST: usize = 4_194_304;
/// Beside the trailer.
pub const MOST_LINES: usize = LONGEST / LINE - 1;
/// Bytes of the longest among thousands of books. The longest that there is takes a second.
pub const LONG: usize = 65_536;

pub struct Sample {
    pub year: u64,
    /// Byte 20 of the trailer.
    pub warming: u8,
    pub units: Vec<Said>,
    pub fuels: Vec<Said>,
    pub records: Vec<Said>,
}

impl Sample {
    pub fn random(dice: &mut Dice) -> Sample {
        let units = rising(unit, dice);
        let fuels = rising(fuel, dice);
        let room = LONG / LINE - 1 - units.len() - fuels.len();
        let records = match dice.below(100) {
            0..=9 => 0,
            10..=11 => room,
            _ => dice.below(40) as usize,
        };
        Sample::with_records(records, units, fuels, dice)
    }

    /// As long as a book may be.
    pub fn longest(dice: &mut Dice) -> Sample {
        let units = rising(unit, dice);
        let fuels = rising(fuel, dice);
        let room = MOST_LINES - units.len() - fuels.len();
        Sample::with_records(room, units, fuels, dice)
    }

    fn with_records(records: usize, units: Vec<Said>, fuels: Vec<Said>, dice: &mut Dice) -> Sample {
        Sample {
            year: dice.within(2000, 2099),
            warming: dice.pick(&[0, 1]),
            units,
            fuels,
            records: some_sent_again(records, dice),
        }
    }

    pub fn bytes(&self) -> Vec<u8> {
        let unit_start = self.records.len() * LINE;
        let fuel_start = unit_start + self.units.len() * LINE;
        let lines = self.records.iter().chain(&self.units).chain(&self.fuels);
        let mut bytes: Vec<u8> = lines.flat_map(|said| said.line).collect();
        bytes.extend(b"STCB\x01\0\0\0");
        bytes.extend((unit_start as u32).to_le_bytes());
        bytes.extend((fuel_start as u32).to_le_bytes());
        bytes.extend((self.year as u16).to_le_bytes());
        bytes.extend([0, 0, self.warming]);
        bytes.extend([0; 11]);
        bytes
    }

    fn year_words(&self) -> String {
        match self.warming {
            0 => format!("year {}", self.year),
            _ => format!("year {} warming second", self.year),
        }
    }

    pub fn text(&self) -> String {
        let mut text = format!("{}\n", self.year_words());
        for said in self.units.iter().chain(&self.fuels).chain(&self.records) {
            text += &format!("{}\n", said.words);
        }
        text
    }

    /// Mixes units, fuels and records, each kept in its order, and says them carelessly.
    pub fn loose_text(&self, dice: &mut Dice) -> String {
        let mut waiting = [self.units.iter(), self.fuels.iter(), self.records.iter()];
        let loosely = match self.warming {
            0 => format!("year {} warming first", self.year),
            _ => format!("year 0{} warming second", self.year),
        };
        let mut text = loose_line(dice.pick(&[&self.year_words(), &loosely]), dice);
        while waiting.iter().any(|queue| queue.len() > 0) {
            if let Some(said) = waiting[dice.below(3) as usize].next() {
                let words = dice.pick(&[&said.words, &said.loosely]);
                text += &loose_line(words, dice);
            }
        }
        text += dice.pick(&["", "\n", "# the end, without a newline", "\t"]);
        text
    }
}

/// Gives so many records of every sort, some of which stand in the book already, byte for byte.
fn some_sent_again(count: usize, dice: &mut Dice) -> Vec<Said> {
    let mut records: Vec<Said> = Vec::new();
    for place in 0..count {
        let record = match place {
            1.. if dice.one_in(8) => records[dice.below(place as u64) as usize].clone(),
            _ => dice.pick(&SORTS)(dice),
        };
        records.push(record);
    }
    records
}

fn loose_line(words: &str, dice: &mut Dice) -> String {
    let before = dice.pick(&[
        "",
        "\n",
        "# a comment: unit 7 rating 1.0\n",
        "  \t\n\n",
        "    ",
    ]);
    let gap = dice.pick(&[" ", "  ", "\t", " \t "]);
    let after = dice.pick(&["", " ", "\r", "# close", "  # naïve µg # again"]);
    let spaced: Vec<&str> = words.split(' ').collect();
    format!("{before}{}{after}\n", spaced.join(gap))
}

/// Gives at most 64 lines, whose numbers rise by 1 to 1,000 and may end at the highest, 65,535.
fn rising(line: fn(u16, &mut Dice) -> Said, dice: &mut Dice) -> Vec<Said> {
    let many = dice.below(65);
    let count = dice.pick(&[0, 1, 2, 3, 64, many]);
    let mut number = 0;
    let mut lines = Vec::new();
    for place in 1..=count {
        number += dice.within(1, 1000) as u16;
        if place == count && dice.one_in(4) {
            number = u16::MAX;
        }
        lines.push(line(number, dice));
    }
    lines
}
