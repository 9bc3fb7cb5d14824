//! Random unit and fuel lines, each with the words that say it, and what random records are made
//! with. Bytes and words are put together from docs/FORMAT.md and README.md, so that the program is
//! compared with something else.

use crate::dice::Dice;

pub const LINE: usize = 32;

#[derive(Clone)]
pub struct Said {
    pub line: [u8; LINE],
    /// The canonical words.
    pub words: String,
    /// Other words for the same line.
    pub loosely: String,
}

pub fn unit(number: u16, dice: &mut Dice) -> Said {
    let rating = dice.within(1, 100_000);
    let (flags, end) = dice.pick(&[(0, ""), (1, " monitor"), (3, " monitor dry")]);
    let mut line = [0; LINE];
    put(&mut line, 0, 2, number.into());
    put(&mut line, 2, 1, flags);
    put(&mut line, 4, 4, rating);
    let (rating, loosely) = spellings(rating);
    Said {
        line,
        words: format!("unit {number} rating {rating}{end}"),
        loosely: format!("unit 0{number} rating {loosely}{end}"),
    }
}

/// Gives the spelling of tenths with one decimal, and another.
pub fn spellings(tenths: u64) -> (String, String) {
    let (whole, tenth) = (tenths / 10, tenths % 10);
    let loosely = match tenth {
        0 => format!("{whole}"),
        _ => format!("0{whole}.{tenth}"),
    };
    (format!("{whole}.{tenth}"), loosely)
}

pub fn fuel(number: u16, dice: &mut Dice) -> Said {
    let (kind, class, kind_and_class) = dice.pick(&[
        (1, 0, "solid other"),
        (2, 0, "liquid other"),
        (3, 0, "gas other"),
        (3, 1, "gas natural-gas"),
        (2, 2, "liquid distillate-oil"),
        (1, 3, "solid pure-biomass"),
    ]);
    let heat = dice.within(0, 200_000);
    let co2 = dice.within(1, 200_000);
    let ch4 = dice.within(0, 200_000);
    let n2o = dice.within(0, 200_000);
    let told = dice.within(20_000, 27_000);
    let molar_volume = dice.pick(&[0, told]);
    let mut line = [0; LINE];
    put(&mut line, 0, 2, number.into());
    put(&mut line, 2, 1, kind);
    put(&mut line, 3, 1, class);
    let values = [heat, co2, ch4, n2o, molar_volume];
    for (at, value) in (4..).step_by(4).zip(values) {
        put(&mut line, at, 4, value);
    }
    let factors = format!("co2 {co2} ch4 {ch4} n2o {n2o}");
    let start = format!("fuel {number} {kind_and_class}");
    let heat_words = format!(" heat {heat}");
    let volume_words = format!(" molar-volume {molar_volume}");
    let [said_heat, said_volume] = [(heat, &heat_words), (molar_volume, &volume_words)]
        .map(|(value, words)| if value == 0 { "" } else { words });
    Said {
        line,
        words: format!("{start}{said_heat} {factors}{said_volume}"),
        loosely: format!("{start}{heat_words} {factors}{volume_words}"),
    }
}

pub fn said(line: [u8; LINE], words: String) -> Said {
    let loosely = raw(line).loosely;
    Said {
        line,
        words,
        loosely,
    }
}

pub fn raw(line: [u8; LINE]) -> Said {
    let digits: String = line.iter().map(|byte| format!("{byte:02X}")).collect();
    Said {
        line,
        words: format!("raw {digits}"),
        loosely: format!("raw {}", digits.to_lowercase()),
    }
}

pub fn put(line: &mut [u8; LINE], at: usize, size: usize, value: u64) {
    line[at..at + size].copy_from_slice(&value.to_le_bytes()[..size]);
}
