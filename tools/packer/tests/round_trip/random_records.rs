//! Random records of every sort, each with the words that say it.

use crate::dice::Dice;
use crate::random_lines::{put, raw, said, spellings, Said, LINE};

/// Every sort of record that a book can hold; the last ten can't be said in words.
pub const SORTS: [fn(&mut Dice) -> Said; 14] = [
    delivery,
    gas_delivery,
    hour,
    anodes,
    unknown_kind,
    unknown_flags,
    low_unmeasured,
    heat_unflagged,
    carbon_unflagged,
    delivery_with_tail,
    gas_with_unknown_flags,
    gas_with_stray_byte,
    hour_with_stray_byte,
    anodes_with_stray_byte,
];

/// Bits and spellings, some of which stand at the borders of a rule.
const READINGS: [(u32, &str); 19] = [
    (0x0000_0000, "0"),
    (0x8000_0000, "bits 80000000"),
    (0x7F80_0000, "bits 7F800000"),
    (0xFF80_0000, "bits FF800000"),
    (0x7FC0_0000, "bits 7FC00000"),
    (0x7F80_0001, "bits 7F800001"),
    (0x0000_0001, "1e-45"),
    (0x8000_0001, "-1e-45"),
    (0x0080_0000, "1.1754944e-38"),
    (0x7F7F_FFFF, "3.4028235e38"),
    (0x3727_C5AC, "0.00001"),
    (0x3727_C5AB, "9.999999e-6"),
    (0x3DCC_CCCD, "0.1"),
    (0x4148_0000, "12.5"),
    (0x42C8_0001, "100.00001"),
    (0xBF80_0000, "-1"),
    (0x49F4_2400, "2000000"),
    (0x4E6E_6B28, "1000000000"),
    (0x5015_02F9, "1e10"),
];

fn delivery(dice: &mut Dice) -> Said {
    let (mut line, mut words) = unmeasured("delivery", 1, dice);
    let heat = dice.pick(&[("heat", 12, 1), ("low-heat", 12, 5)]);
    for (name, at, flags) in [heat, ("carbon", 16, 2)] {
        if dice.one_in(2) {
            line[1] |= flags;
            put_value(&mut line, &mut words, name, at, dice);
        }
    }
    said(line, words)
}

fn gas_delivery(dice: &mut Dice) -> Said {
    let (mut line, mut words) = unmeasured("gas-delivery", 3, dice);
    for (name, at) in [("carbon", 16), ("molecular-weight", 20)] {
        put_value(&mut line, &mut words, name, at, dice);
    }
    if dice.one_in(2) {
        let (name, flags) = dice.pick(&[("heat", 1), ("low-heat", 5)]);
        line[1] = flags;
        put_value(&mut line, &mut words, name, 12, dice);
    }
    said(line, words)
}

/// Gives the bytes and the words that a delivery of either sort starts with.
fn unmeasured(sort: &str, kind: u8, dice: &mut Dice) -> ([u8; LINE], String) {
    let mut line = [0; LINE];
    line[0] = kind;
    let mut words = sort.to_string();
    for (name, at) in [("unit", 2), ("fuel", 4), ("month", 6)] {
        let value = dice.within(0, 65_535);
        put(&mut line, at, 2, value);
        words += &format!(" {name} {value}");
    }
    put_value(&mut line, &mut words, "amount", 8, dice);
    (line, words)
}

/// Says a random value of four bytes.
fn put_value(line: &mut [u8; LINE], words: &mut String, name: &str, at: usize, dice: &mut Dice) {
    let value = dice.within(0, u32::MAX.into());
    put(line, at, 4, value);
    *words += &format!(" {name} {value}");
}

fn hour(dice: &mut Dice) -> Said {
    let unit = dice.within(0, 65_535);
    let hour = dice.within(0, 65_535);
    let (percent, percent_words) = reading(dice);
    let (flow, flow_words) = reading(dice);
    let mut line = [0; LINE];
    line[0] = 2;
    put(&mut line, 2, 2, unit);
    put(&mut line, 6, 2, hour);
    put(&mut line, 8, 4, percent.into());
    put(&mut line, 12, 4, flow.into());
    let moisture = moisture(dice);
    put(&mut line, 16, 2, moisture);
    let bare = format!("hour unit {unit} hour {hour} percent {percent_words} flow {flow_words}");
    let (spelling, loosely) = spellings(moisture);
    let words = match moisture {
        0 => bare.clone(),
        _ => format!("{bare} moisture {spelling}"),
    };
    let loosely = format!("{bare} moisture {loosely}");
    Said {
        line,
        words,
        loosely: dice.pick(&[&loosely, &raw(line).loosely]).clone(),
    }
}

/// Gives none, some that a dry unit may have, too much, or what is in the high byte alone.
fn moisture(dice: &mut Dice) -> u64 {
    let sound = dice.within(1, 1_000);
    let too_much = dice.within(1_001, 65_535);
    dice.pick(&[0, sound, too_much, 256])
}

/// Quarters below 2^14 and whole numbers below 2^23 lie so far from their neighbours' decimals that
/// all of their digits are needed, and so are known without asking for a shortest spelling.
fn reading(dice: &mut Dice) -> (u32, String) {
    let quarters = dice.below(1 << 16) as u32;
    let fraction = ["", ".25", ".5", ".75"][quarters as usize % 4];
    let whole = dice.below(1 << 23) as u32;
    let nan = 0x7F80_0001 + dice.below(0x007F_FFFF) as u32;
    let negative_nan = nan | 0x8000_0000;
    let (bits, spelling) = dice.pick(&READINGS);
    match dice.below(5) {
        0 => (bits, spelling.to_string()),
        1 => (nan, format!("bits {nan:08X}")),
        2 => (negative_nan, format!("bits {negative_nan:08X}")),
        3 => ((whole as f32).to_bits(), whole.to_string()),
        _ => (
            (quarters as f32 / 4.0).to_bits(),
            format!("{}{fraction}", quarters / 4),
        ),
    }
}

fn anodes(dice: &mut Dice) -> Said {
    let mut line = [0; LINE];
    line[0] = 4;
    let mut words = "anodes".to_string();
    for (name, at, size, most) in [
        ("unit", 2, 2, u16::MAX.into()),
        ("month", 6, 2, u16::MAX.into()),
        ("metal", 8, 4, u32::MAX.into()),
        ("use", 12, 4, u32::MAX.into()),
    ] {
        let value = dice.within(0, most);
        put(&mut line, at, size, value);
        words += &format!(" {name} {value}");
    }
    let mut loosely = words.clone();
    for (name, at) in [("sulphur", 16), ("ash", 18), ("other", 20)] {
        let value = impurity(dice);
        put(&mut line, at, 2, value);
        let (spelling, other_spelling) = spellings_of_hundredths(value);
        words += &format!(" {name} {spelling}");
        loosely += &format!(" {name} {other_spelling}");
    }
    Said {
        line,
        words,
        loosely: dice.pick(&[&loosely, &raw(line).loosely]).clone(),
    }
}

/// Gives none, some that anodes may have, too much, or what is in the high byte alone.
fn impurity(dice: &mut Dice) -> u64 {
    let sound = dice.within(1, 10_000);
    let too_much = dice.within(10_001, 65_535);
    dice.pick(&[0, sound, too_much, 256])
}

/// Gives the spelling of hundredths with two decimals, and another.
fn spellings_of_hundredths(hundredths: u64) -> (String, String) {
    let (whole, rest) = (hundredths / 100, hundredths % 100);
    let loosely = match (rest / 10, rest % 10) {
        (0, 0) => format!("{whole}"),
        (tenth, 0) => format!("{whole}.{tenth}"),
        _ => format!("0{whole}.{rest:02}"),
    };
    (format!("{whole}.{rest:02}"), loosely)
}

fn unknown_kind(dice: &mut Dice) -> Said {
    let mut line = std::array::from_fn(|_| dice.next() as u8);
    line[0] = dice.pick(&[0, 5, 6, 128, 255]);
    raw(line)
}

fn unknown_flags(dice: &mut Dice) -> Said {
    let mut line = delivery(dice).line;
    line[1] |= dice.pick(&[8, 16, 128]);
    raw(line)
}

fn low_unmeasured(dice: &mut Dice) -> Said {
    let mut line = delivery(dice).line;
    line[1] = line[1] & 2 | 4;
    raw(line)
}

fn heat_unflagged(dice: &mut Dice) -> Said {
    let mut line = delivery(dice).line;
    line[1] &= 2;
    line[dice.pick(&[12, 13, 14, 15])] = 1 + dice.below(255) as u8;
    raw(line)
}

fn carbon_unflagged(dice: &mut Dice) -> Said {
    let mut line = delivery(dice).line;
    line[1] &= 5;
    line[dice.pick(&[16, 17, 18, 19])] = 1 + dice.below(255) as u8;
    raw(line)
}

fn delivery_with_tail(dice: &mut Dice) -> Said {
    let mut line = delivery(dice).line;
    line[20 + dice.below(12) as usize] = 1 + dice.below(255) as u8;
    raw(line)
}

/// The flag of carbon is none that such a record has.
fn gas_with_unknown_flags(dice: &mut Dice) -> Said {
    let mut line = gas_delivery(dice).line;
    line[1] |= dice.pick(&[2, 8, 128]);
    raw(line)
}

fn gas_with_stray_byte(dice: &mut Dice) -> Said {
    let mut line = gas_delivery(dice).line;
    line[24 + dice.below(8) as usize] = 1 + dice.below(255) as u8;
    raw(line)
}

fn hour_with_stray_byte(dice: &mut Dice) -> Said {
    let mut line = hour(dice).line;
    let tail = 18 + dice.below(14) as usize;
    line[dice.pick(&[1, 4, 5, tail])] = 1 + dice.below(255) as u8;
    raw(line)
}

fn anodes_with_stray_byte(dice: &mut Dice) -> Said {
    let mut line = anodes(dice).line;
    let tail = 22 + dice.below(10) as usize;
    line[dice.pick(&[1, 4, 5, tail])] = 1 + dice.below(255) as u8;
    raw(line)
}
