//! The bits of a single.

/// Those of `significand` times two to the power `exponent`, which must be a
/// normal single.
pub fn single(significand: u32, exponent: i32) -> u32 {
    let shift = significand.leading_zeros() - 8;
    let field = exponent - shift as i32 + 150;
    (field as u32) << 23 | (significand << shift) & 0x7F_FFFF
}

#[cfg(test)]
mod tests {
    use super::*;
    use crate::specials::FLOW_LIMIT;
    use second::single::{decode, Single, Size};

    #[test]
    fn singles_are_encoded_as_they_are_decoded() {
        let twelve_and_a_half = single(25, -1);
        assert_eq!(twelve_and_a_half, 0x4148_0000);
        let size = Size {
            significand: 0xC8_0000,
            exponent: -20,
        };
        let negative = false;
        assert_eq!(decode(twelve_and_a_half), Single::Finite { negative, size });
        assert_eq!(single(1_000_000_000 >> 9, 9), FLOW_LIMIT);
    }
}
