//! The words of analysed gas beside its bytes.

use packer::{pack, unpack};

use crate::random_lines::LINE;

/// Unit 1, fuel 2, month 6, 1,000 m3, 748,600 mg of carbon per kg, 16,040 g per kmol.
const WORDS: &str =
    "gas-delivery unit 1 fuel 2 month 6 amount 1000 carbon 748600 molecular-weight 16040";
const BYTES: [u8; LINE] = [
    0x03, 0x00, 0x01, 0x00, 0x02, 0x00, 0x06, 0x00, 0xe8, 0x03, 0x00, 0x00, 0x00, 0x00, 0x00, 0x00,
    0x38, 0x6c, 0x0b, 0x00, 0xa8, 0x3e, 0x00, 0x00, 0x00, 0x00, 0x00, 0x00, 0x00, 0x00, 0x00, 0x00,
];

fn text_of(record: &str) -> String {
    format!("year 2010\n{record}\n")
}

/// A book of this record alone: its trailer is that of any text with one record.
fn book_of(record: [u8; LINE]) -> Vec<u8> {
    let mut book = pack(text_of(WORDS).as_bytes()).unwrap();
    book[..LINE].copy_from_slice(&record);
    book
}

#[test]
fn the_words_of_analysed_gas_are_its_bytes() {
    for (end, flags, heat) in [
        ("", 0, 0_u32),
        (" heat 38000", 1, 38_000),
        (" low-heat 35100", 5, 35_100),
        (" heat 0", 1, 0),
        (" low-heat 4294967295", 5, u32::MAX),
    ] {
        let mut record = BYTES;
        record[1] = flags;
        record[12..16].copy_from_slice(&heat.to_le_bytes());
        let text = text_of(&format!("{WORDS}{end}"));
        assert_eq!(pack(text.as_bytes()), Ok(book_of(record)));
        assert_eq!(unpack(&book_of(record)), Ok(text));
    }
}

/// A byte that the words don't name makes the record raw, and every other one is said by them.
#[test]
fn each_byte_of_analysed_gas_is_said() {
    for at in 1..LINE {
        let mut record = BYTES;
        record[at] ^= 0x81;
        let book = book_of(record);
        let text = unpack(&book).unwrap();
        let is_named = matches!(at, 2..=11 | 16..=23);
        let start = if is_named { "gas-delivery " } else { "raw 03" };
        let said = text.strip_prefix("year 2010\n").unwrap();
        assert!(said.starts_with(start), "byte {at}: {said}");
        assert_eq!(pack(text.as_bytes()), Ok(book), "byte {at}");
    }
}

/// A flag for carbon would say nothing, and a low heat is a measured one.
#[test]
fn each_pattern_of_the_flags_is_said() {
    for flags in 0..=255 {
        let mut record = BYTES;
        (record[1], record[12]) = (flags, 1);
        let book = book_of(record);
        let text = unpack(&book).unwrap();
        let start = if [1, 5].contains(&flags) {
            "gas-delivery "
        } else {
            "raw 03"
        };
        let said = text.strip_prefix("year 2010\n").unwrap();
        assert!(said.starts_with(start), "flags {flags}: {said}");
        assert_eq!(pack(text.as_bytes()), Ok(book), "flags {flags}");
    }
}
