//! IEEE singles in words, so that each pattern of 32 bits has one spelling that gives it back.

const MINUS_ZERO: u32 = 0x8000_0000;

/// Spells the shortest decimal that stands for these bits alone. What no decimal says, minus zero,
/// the infinities and the NaNs, is spelled as bits.
pub fn spell(bits: u32) -> String {
    let value = f32::from_bits(bits);
    if !value.is_finite() || bits == MINUS_ZERO {
        format!("bits {bits:08X}")
    } else if value == 0.0 || (1e-5..1e10).contains(&value.abs()) {
        value.to_string()
    } else {
        format!("{value:e}")
    }
}

/// Gives the single nearest to a decimal.
pub fn from_decimal(word: &str) -> Result<u32, String> {
    // Rust also reads words such as `inf` and `NaN`, which don't say which bits are meant.
    let decimal = |c: char| c.is_ascii_digit() || matches!(c, '.' | '-' | 'e');
    let value = match word.parse::<f32>() {
        Ok(value) if word.chars().all(decimal) => value,
        _ => {
            return Err(format!(
                "`{word}` is no decimal number, nor `bits` and 8 hex digits"
            ))
        }
    };
    let digits = word.split('e').next().unwrap_or_default();
    let is_zero = !digits.contains(|c| matches!(c, '1'..='9'));
    if value.is_infinite() {
        Err(format!(
            "{word} is too large for a single; `bits 7F800000` is infinity"
        ))
    } else if value.to_bits() == MINUS_ZERO && is_zero {
        Err(format!(
            "{word} is plain 0 for a decimal; `bits 80000000` is minus zero"
        ))
    } else if value == 0.0 && !is_zero {
        Err(format!("{word} is too close to 0 for a single"))
    } else {
        Ok(value.to_bits())
    }
}

pub fn from_hex(word: &str) -> Result<u32, String> {
    match u32::from_str_radix(word, 16) {
        // from_str_radix would take a plus sign for one of the 8.
        Ok(bits) if word.len() == 8 && !word.starts_with('+') => Ok(bits),
        _ => Err(format!(
            "`bits` is followed by 8 hex digits, not by `{word}`"
        )),
    }
}

#[cfg(test)]
mod tests {
    use super::*;

    /// Visits each exponent and sign with fractions at the ends and in between.
    fn each_pattern(mut visit: impl FnMut(u32)) {
        for top in 0..512 {
            let between = (1..200).map(|step: u32| step.wrapping_mul(0x9E37_79B9) >> 9);
            for fraction in between.chain([0, 1, 0x40_0000, 0x7F_FFFF]) {
                visit(top << 23 | fraction);
            }
        }
    }

    fn read(spelling: &str) -> Result<u32, String> {
        match spelling.strip_prefix("bits ") {
            Some(digits) => from_hex(digits),
            None => from_decimal(spelling),
        }
    }

    #[test]
    fn a_spelling_gives_back_its_bits() {
        each_pattern(|bits| assert_eq!(read(&spell(bits)), Ok(bits), "{bits:08X}"));
    }

    #[test]
    fn only_what_no_decimal_says_is_spelled_as_bits() {
        each_pattern(|bits| {
            let beyond = bits & 0x7F80_0000 == 0x7F80_0000 || bits == 0x8000_0000;
            assert_eq!(spell(bits).starts_with("bits "), beyond, "{bits:08X}");
        });
    }

    /// Of the decimals with one digit less, the nearest stands for other bits.
    #[test]
    fn no_decimal_with_fewer_digits_gives_the_bits() {
        let mut tried = 0;
        each_pattern(|bits| {
            let value = f32::from_bits(bits);
            let spelling = format!("{:e}", spell(bits).parse::<f64>().unwrap_or(0.0));
            let digits = spelling.split('e').next().unwrap_or_default();
            let count = digits.chars().filter(char::is_ascii_digit).count();
            if value.is_finite() && count > 1 {
                tried += 1;
                let shorter = format!("{:.*e}", count - 2, f64::from(value));
                assert_ne!(
                    shorter.parse::<f32>().map(f32::to_bits),
                    Ok(bits),
                    "{shorter}"
                );
            }
        });
        assert!(tried > 90_000, "{tried}");
    }

    #[test]
    fn a_spelling_stays_short() {
        let mut longest = 0;
        each_pattern(|bits| longest = longest.max(spell(bits).len()));
        assert_eq!(longest, "-0.0000123456789".len());
    }
}
