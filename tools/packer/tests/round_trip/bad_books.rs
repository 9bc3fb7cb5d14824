//! Books that are refused: the book of docs/FORMAT.md with bytes changed, and others of bad sizes.

use crate::random_lines::LINE;

pub const TEXT: &str = "\
year 2010
unit 1 rating 250.0
fuel 1 gas natural-gas heat 38000 co2 50000 ch4 900 n2o 90
delivery unit 1 fuel 1 month 6 amount 1000
";

/// The bytes as the page has them, line by line.
pub const BYTES: [u8; 128] = [
    0x01, 0x00, 0x01, 0x00, 0x01, 0x00, 0x06, 0x00, 0xe8, 0x03, 0x00, 0x00, 0x00, 0x00, 0x00, 0x00,
    0x00, 0x00, 0x00, 0x00, 0x00, 0x00, 0x00, 0x00, 0x00, 0x00, 0x00, 0x00, 0x00, 0x00, 0x00, 0x00,
    0x01, 0x00, 0x00, 0x00, 0xc4, 0x09, 0x00, 0x00, 0x00, 0x00, 0x00, 0x00, 0x00, 0x00, 0x00, 0x00,
    0x00, 0x00, 0x00, 0x00, 0x00, 0x00, 0x00, 0x00, 0x00, 0x00, 0x00, 0x00, 0x00, 0x00, 0x00, 0x00,
    0x01, 0x00, 0x03, 0x01, 0x70, 0x94, 0x00, 0x00, 0x50, 0xc3, 0x00, 0x00, 0x84, 0x03, 0x00, 0x00,
    0x5a, 0x00, 0x00, 0x00, 0x00, 0x00, 0x00, 0x00, 0x00, 0x00, 0x00, 0x00, 0x00, 0x00, 0x00, 0x00,
    0x53, 0x54, 0x43, 0x42, 0x01, 0x00, 0x00, 0x00, 0x20, 0x00, 0x00, 0x00, 0x40, 0x00, 0x00, 0x00,
    0xda, 0x07, 0x00, 0x00, 0x00, 0x00, 0x00, 0x00, 0x00, 0x00, 0x00, 0x00, 0x00, 0x00, 0x00, 0x00,
];

/// An offset in the page's book, the bytes put there in hex, the number of the refusal, and words
/// that its message must have.
const CHANGES: &str = "
96 58 21 the trailer at byte 96: it doesn't start with STCB
99 58 21 the trailer at byte 96: it doesn't start with STCB
100 02 21 its version isn't 1
101 01 21 its version isn't 1
102 01 21 byte 6 of the line has a bit that must be 0
114 01 21 byte 18 of the line has a bit that must be 0
115 01 21 byte 19 of the line has a bit that must be 0
116 02 21 byte 20 of the line is 2, neither 0, warming first, nor 1, warming second
116 ff 21 byte 20 of the line is 255, neither 0, warming first, nor 1, warming second
117 01 21 byte 21 of the line has a bit that must be 0
127 01 21 byte 31 of the line has a bit that must be 0
116 0101 21 byte 21 of the line has a bit that must be 0
116 0201 21 byte 20 of the line is 2
100 020000002000000040000000da07000002 21 its version isn't 1
104 21 21 the starts 33 and 64 aren't both multiples of 32
108 41 21 the starts 32 and 65 aren't both multiples of 32
104 60 21 unit start 96, fuel start 64 and trailer 96 aren't in this order
108 80 21 unit start 32, fuel start 128 and trailer 96 aren't in this order
111 80 21 unit start 32, fuel start 2147483712 and trailer 96 aren't in this order
112 cf07 21 year 1999 isn't from 2000 to 2099
112 3408 21 year 2100 isn't from 2000 to 2099

32 00 22 unit line 1 at byte 32: unit 0 can't be
34 02 22 unit line 1 at byte 32: it has the flag of dry gas without that of a monitor
34 0201 22 it has the flag of dry gas without that of a monitor
34 0301 22 byte 3 of the line has a bit that must be 0
34 04 22 unit line 1 at byte 32: byte 2 of the line has a bit that must be 0
34 06 22 byte 2 of the line has a bit that must be 0
34 07 22 byte 2 of the line has a bit that must be 0
34 81 22 byte 2 of the line has a bit that must be 0
35 01 22 byte 3 of the line has a bit that must be 0
40 01 22 byte 8 of the line has a bit that must be 0
36 0000 22 unit 1 has rating 0.0; a rating is from 0.1 to 10000.0
36 a18601 22 unit 1 has rating 10000.1

64 00 23 fuel line 1 at byte 64: fuel 0 can't be
66 0000 23 kind 0 isn't from 1 to 3
66 0400 23 kind 4 isn't from 1 to 3
67 04 23 class 4 isn't from 0 to 3
67 02 23 fuel 1 can't be distillate-oil, since it is gas
68 410d03 23 fuel 1 has heat 200001
72 0000 23 fuel 1 has co2 0
72 410d03 23 fuel 1 has co2 200001
76 410d03 23 fuel 1 has ch4 200001
80 410d03 23 fuel 1 has n2o 200001
84 01 23 fuel line 1 at byte 64: fuel 1 has molar-volume 1; its molar-volume is from 20000 to 27000
84 1f4e 23 fuel 1 has molar-volume 19999; its molar-volume is from 20000 to 27000
84 7969 23 fuel 1 has molar-volume 27001; its molar-volume is from 20000 to 27000
84 ffffffff 23 fuel 1 has molar-volume 4294967295
87 01 23 fuel 1 has molar-volume 16777216
66 0200010000000100000000000000000000001f4e 23 fuel 1 has molar-volume 19999
88 01 23 byte 24 of the line has a bit that must be 0
95 01 23 byte 31 of the line has a bit that must be 0

104 00 22 unit line 1 at byte 0: byte 8 of the line has a bit that must be 0
108 60 22 unit line 2 at byte 64: byte 3 of the line has a bit that must be 0
108 20 23 fuel line 1 at byte 32: kind 0 isn't from 1 to 3
";

/// Gives each changed book, with its number and words.
pub fn changed() -> impl Iterator<Item = (Vec<u8>, &'static str, &'static str)> {
    let rows = CHANGES.lines().filter(|row| !row.is_empty());
    rows.map(|row| {
        let parts: Vec<&str> = row.splitn(4, ' ').collect();
        let (at, hex) = (parts[0].parse::<usize>().unwrap(), parts[1]);
        let mut bytes = BYTES.to_vec();
        for place in 0..hex.len() / 2 {
            let digits = &hex[2 * place..2 * place + 2];
            bytes[at + place] = u8::from_str_radix(digits, 16).unwrap();
        }
        (bytes, parts[2], parts[3])
    })
}

/// Gives a book whose records, units and fuels are so many lines each.
pub fn sized(records: usize, units: usize, fuels: usize) -> Vec<u8> {
    let numbered =
        |number: usize, line: &[u8]| [&(number as u16).to_le_bytes(), &line[2..]].concat();
    let lines: Vec<&[u8]> = BYTES.chunks(LINE).collect();
    let start = |line: usize| ((LINE * line) as u32).to_le_bytes();
    let mut bytes = lines[0].repeat(records);
    bytes.extend((1..=units).flat_map(|number| numbered(number, lines[1])));
    bytes.extend((1..=fuels).flat_map(|number| numbered(number, lines[2])));
    bytes.extend(&lines[3][..8]);
    bytes.extend(start(records));
    bytes.extend(start(records + units));
    bytes.extend(&lines[3][16..]);
    bytes
}
