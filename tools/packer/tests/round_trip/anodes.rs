//! The words of anodes beside their bytes.

use packer::{pack, unpack};

use crate::random_lines::LINE;

/// Unit 3, month 4, 1,000,000 kg, 420 g per kg, then 125, 40 and 0 hundredths.
const WORDS: &str = "anodes unit 3 month 4 metal 1000000 use 420 sulphur 1.25 ash 0.40 other 0.00";
const BYTES: [u8; LINE] = [
    0x04, 0x00, 0x03, 0x00, 0x00, 0x00, 0x04, 0x00, 0x40, 0x42, 0x0f, 0x00, 0xa4, 0x01, 0x00, 0x00,
    0x7d, 0x00, 0x28, 0x00, 0x00, 0x00, 0x00, 0x00, 0x00, 0x00, 0x00, 0x00, 0x00, 0x00, 0x00, 0x00,
];

fn text_of(record: &str) -> String {
    format!("year 2010\n{record}\n")
}

/// A book of this record alone: its trailer is that of any text with one record.
fn book_of(record: [u8; LINE]) -> Vec<u8> {
    let mut book = pack(text_of(WORDS).as_bytes()).unwrap();
    book[..LINE].copy_from_slice(&record);
    book
}

#[test]
fn the_words_of_anodes_are_their_bytes() {
    assert_eq!(pack(text_of(WORDS).as_bytes()), Ok(book_of(BYTES)));
    assert_eq!(unpack(&book_of(BYTES)), Ok(text_of(WORDS)));
}

/// In hundredths, whether or not the library lets them count.
#[test]
fn an_impurity_has_two_decimals_at_most() {
    for (at, name, in_words) in [
        (16, "sulphur", "sulphur 1.25"),
        (18, "ash", "ash 0.40"),
        (20, "other", "other 0.00"),
    ] {
        for (said, unpacked, hundredths) in [
            ("0", "0.00", 0_u16),
            ("0.0", "0.00", 0),
            ("0.01", "0.01", 1),
            ("0.1", "0.10", 10),
            ("1", "1.00", 100),
            ("01.5", "1.50", 150),
            ("2.56", "2.56", 256),
            ("100", "100.00", 10_000),
            ("100.01", "100.01", 10_001),
            ("655.35", "655.35", 65_535),
        ] {
            let with = |spelling| text_of(&WORDS.replace(in_words, &format!("{name} {spelling}")));
            let mut record = BYTES;
            record[at..at + 2].copy_from_slice(&hundredths.to_le_bytes());
            let book = book_of(record);
            assert_eq!(unpack(&book), Ok(with(unpacked)));
            assert_eq!(pack(with(said).as_bytes()), Ok(book), "{name} {said}");
        }
    }
}

/// A byte that the words don't name makes the record raw, and every other one is said by them.
#[test]
fn each_byte_of_anodes_is_said() {
    for at in 1..LINE {
        let mut record = BYTES;
        record[at] ^= 0x81;
        let book = book_of(record);
        let text = unpack(&book).unwrap();
        let is_named = matches!(at, 2..=3 | 6..=21);
        let start = if is_named { "anodes " } else { "raw 04" };
        let said = text.strip_prefix("year 2010\n").unwrap();
        assert!(said.starts_with(start), "byte {at}: {said}");
        assert_eq!(pack(text.as_bytes()), Ok(book), "byte {at}");
    }
}
