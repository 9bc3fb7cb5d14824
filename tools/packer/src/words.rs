//! The words of one line of a text, taken one after the other.

use std::fmt::Display;
use std::str::{FromStr, SplitWhitespace};

use crate::book::{in_hundredths, in_tenths, LINE};
use crate::single;

/// Numbers that are kept in tenths or in hundredths: how many decimals one has at most, in words
/// too, and how it is spelled.
struct Decimals {
    most: usize,
    words: &'static str,
    spell: fn(u32) -> String,
}

const TENTHS: Decimals = Decimals {
    most: 1,
    words: "one decimal or none",
    spell: in_tenths,
};
const HUNDREDTHS: Decimals = Decimals {
    most: 2,
    words: "two decimals at most",
    spell: in_hundredths,
};

pub struct Words<'a> {
    rest: SplitWhitespace<'a>,
}

impl<'a> Words<'a> {
    /// What follows a `#` is a comment and no word.
    pub fn of(line: &'a str) -> Words<'a> {
        let (said, _comment) = line.split_once('#').unwrap_or((line, ""));
        Words {
            rest: said.split_whitespace(),
        }
    }

    pub fn next(&mut self) -> Option<&'a str> {
        self.rest.next()
    }

    pub fn end(&mut self) -> Result<(), String> {
        match self.next() {
            None => Ok(()),
            Some(word) => Err(format!("`{word}` is one word too many, or out of place")),
        }
    }

    /// Takes the next word if it is this one.
    pub fn takes(&mut self, word: &str) -> bool {
        let mut ahead = self.rest.clone();
        let found = ahead.next() == Some(word);
        if found {
            self.rest = ahead;
        }
        found
    }

    pub fn expect(&mut self, word: &str) -> Result<(), String> {
        match self.next() {
            Some(found) if found == word => Ok(()),
            Some(found) => Err(format!("`{word}` should stand where `{found}` does")),
            None => Err(format!("`{word}` is missing at the end of the line")),
        }
    }

    /// Gives the thing whose word comes next.
    pub fn one_of<T: Copy>(&mut self, all: &[T], word: fn(T) -> &'static str) -> Result<T, String> {
        let choices: Vec<_> = all.iter().map(|&thing| word(thing)).collect();
        let choices = choices.join(", ");
        let Some(found) = self.next() else {
            return Err(format!("the line ends without one of {choices}"));
        };
        let thing = all.iter().find(|&&thing| word(thing) == found);
        thing
            .copied()
            .ok_or(format!("`{found}` is none of {choices}"))
    }

    pub fn number16(&mut self, name: &str) -> Result<u16, String> {
        let digits = self.digits(name)?;
        digits
            .parse()
            .map_err(|_| too_large(name, digits, u16::MAX))
    }

    pub fn number32(&mut self, name: &str) -> Result<u32, String> {
        let digits = self.digits(name)?;
        digits
            .parse()
            .map_err(|_| too_large(name, digits, u32::MAX))
    }

    /// Reads a number with one decimal or none, and gives it in tenths.
    pub fn tenths16(&mut self, name: &str) -> Result<u16, String> {
        self.decimal(name, &TENTHS, u16::MAX)
    }

    /// Reads a number with one decimal or none, and gives it in tenths.
    pub fn tenths32(&mut self, name: &str) -> Result<u32, String> {
        self.decimal(name, &TENTHS, u32::MAX)
    }

    /// Reads a number with two decimals at most, and gives it in hundredths.
    pub fn hundredths16(&mut self, name: &str) -> Result<u16, String> {
        self.decimal(name, &HUNDREDTHS, u16::MAX)
    }

    fn decimal<T: FromStr + Into<u32>>(
        &mut self,
        name: &str,
        decimals: &Decimals,
        most: T,
    ) -> Result<T, String> {
        let word = self.value(name)?;
        let (whole, fraction) = word.split_once('.').unwrap_or((word, "0"));
        let places = decimals.most;
        if !all_digits(whole) || !all_digits(fraction) || fraction.len() > places {
            return Err(format!(
                "`{name}` is followed by a number with {}, not by `{word}`",
                decimals.words
            ));
        }
        format!("{whole}{fraction:0<places$}")
            .parse()
            .map_err(|_| too_large(name, word, (decimals.spell)(most.into())))
    }

    /// Reads a single, and gives its bits.
    pub fn single(&mut self, name: &str) -> Result<u32, String> {
        match self.value(name)? {
            "bits" => single::from_hex(self.value("bits")?),
            decimal => single::from_decimal(decimal),
        }
    }

    pub fn raw_bytes(&mut self, name: &str) -> Result<[u8; LINE], String> {
        let word = self.value(name)?;
        let digits: Option<Vec<u32>> = word.chars().map(|c| c.to_digit(16)).collect();
        match digits {
            Some(digits) if digits.len() == 2 * LINE => Ok(std::array::from_fn(|at| {
                (digits[2 * at] * 16 + digits[2 * at + 1]) as u8
            })),
            _ => Err(format!("`{name}` is followed by {} hex digits", 2 * LINE)),
        }
    }

    fn value(&mut self, name: &str) -> Result<&'a str, String> {
        self.next()
            .ok_or(format!("`{name}` is followed by nothing"))
    }

    fn digits(&mut self, name: &str) -> Result<&'a str, String> {
        let word = self.value(name)?;
        if all_digits(word) {
            return Ok(word);
        }
        Err(format!(
            "`{name}` is followed by a whole number in plain digits, not by `{word}`"
        ))
    }
}

fn all_digits(word: &str) -> bool {
    !word.is_empty() && word.chars().all(|c| c.is_ascii_digit())
}

fn too_large(name: &str, number: &str, most: impl Display) -> String {
    format!("{name} {number} is too large to write down; the most is {most}")
}
