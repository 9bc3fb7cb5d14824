//! Singles that are special to a reading: their classes and their bits.

/// 100 and 1,000,000,000 as singles, both exact.
pub const PERCENT_LIMIT: u32 = 0x42C8_0000;
pub const FLOW_LIMIT: u32 = 0x4E6E_6B28;

pub const CLASSES: [&str; 22] = [
    "quiet NaN",
    "quiet NaN, minus",
    "signalling NaN",
    "signalling NaN, minus",
    "infinity",
    "minus infinity",
    "zero",
    "minus zero",
    "smallest subnormal",
    "smallest subnormal, minus",
    "largest subnormal",
    "largest subnormal, minus",
    "smallest normal",
    "smallest normal, minus",
    "just below the limit",
    "the limit",
    "just above the limit",
    "largest finite",
    "largest finite, minus",
    "other, in range",
    "other, over the limit",
    "other, below zero",
];

const SIGN: u32 = 0x8000_0000;
const INFINITY: u32 = 0x7F80_0000;
const QUIET: u32 = 0x0040_0000;
const LARGEST_SUBNORMAL: u32 = 0x007F_FFFF;
const SMALLEST_NORMAL: u32 = 0x0080_0000;
const LARGEST_FINITE: u32 = 0x7F7F_FFFF;

/// Whether a reading of this class is usable.
pub fn is_usable(class: usize) -> bool {
    const IN_RANGE: [usize; 8] = [6, 7, 8, 10, 12, 14, 15, 19];
    IN_RANGE.contains(&class)
}

/// The place in `CLASSES` of a reading with this limit.
pub fn class(bits: u32, limit: u32) -> usize {
    let minus = usize::from(bits & SIGN != 0);
    let size = bits & !SIGN;
    // Sizes of singles are in the order of their bits.
    match size {
        _ if size > INFINITY && size & QUIET != 0 => minus,
        _ if size > INFINITY => 2 + minus,
        INFINITY => 4 + minus,
        0 => 6 + minus,
        1 => 8 + minus,
        LARGEST_SUBNORMAL => 10 + minus,
        SMALLEST_NORMAL => 12 + minus,
        LARGEST_FINITE => 17 + minus,
        _ if minus == 1 => 21,
        _ if size == limit - 1 => 14,
        _ if size == limit => 15,
        _ if size == limit + 1 => 16,
        _ if size < limit => 19,
        _ => 20,
    }
}

/// At least one single of every class.
pub fn singles(limit: u32) -> Vec<u32> {
    let sizes = [
        INFINITY | QUIET,
        0x7FFF_FFFF,
        INFINITY | 1,
        0x7FBF_FFFF,
        INFINITY,
        0,
        1,
        2,
        LARGEST_SUBNORMAL,
        SMALLEST_NORMAL,
        SMALLEST_NORMAL + 1,
        0x3E80_0000, // 0.25
        0x3F7F_FFFF, // just below 1
        limit - 1,
        limit,
        limit + 1,
        LARGEST_FINITE,
    ];
    let signed = sizes.iter().flat_map(|&size| [size, size | SIGN]);
    signed.chain([limit + 0x0080_0000]).collect()
}
