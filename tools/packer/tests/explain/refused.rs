//! What is said of books that are refused.

use packer::explain;

use crate::{book_of, explained, named, TEXT};

const NO_BOOK: &str = "copy it anew, or pack it anew from its text; it may be no book at all";
const UNITS: &str = "copy it anew, or correct the units in its text and pack it anew";
const FUELS: &str = "copy it anew, or correct the fuels in its text and pack it anew";

/// The text's book with another byte. Its units start at 160, its fuel at 224, its trailer at 256.
fn changed(place: usize, value: u8) -> Vec<u8> {
    let mut bytes = book_of(TEXT).content;
    bytes[place] = value;
    bytes
}

fn assert_told_without_asking(bytes: Vec<u8>, refusal: &str, remedy: &str) {
    let book = named("BOOK", bytes);
    let explanation = explain(&book, None, |_| panic!("{refusal}")).unwrap();
    let wanted = format!("BOOK: {refusal}\n  to do: {remedy}\n");
    assert_eq!(explanation.words, wanted);
    assert!(!explanation.is_clean);
}

#[test]
fn a_refused_book_is_told_without_asking() {
    let cases = [
        (
            book_of(TEXT).content[1..].to_vec(),
            "refused 20: 287 bytes are no book; that is a multiple of 32, 32 to 4194304",
            NO_BOOK,
        ),
        (
            changed(256, 0),
            "refused 21: the trailer at byte 256: it doesn't start with STCB",
            NO_BOOK,
        ),
        (
            changed(192, 1),
            "refused 22: unit line 2 at byte 192: unit 1 comes after unit 1; unit numbers rise",
            UNITS,
        ),
        (
            changed(224, 0),
            "refused 23: fuel line 1 at byte 224: fuel 0 can't be; fuel numbers start at 1",
            FUELS,
        ),
    ];
    for (bytes, refusal, remedy) in cases {
        assert_told_without_asking(bytes, refusal, remedy);
    }
}

#[test]
fn warming_values_of_no_set_are_told_without_asking() {
    for value in [2, 255] {
        let refusal = format!(
            "refused 21: the trailer at byte 256: byte 20 of the line is {value}, neither 0, \
             warming first, nor 1, warming second"
        );
        assert_told_without_asking(changed(256 + 20, value), &refusal, NO_BOOK);
    }
}

#[test]
fn dry_gas_without_a_monitor_is_told_without_asking() {
    for (at, line) in [(160, 1), (192, 2)] {
        let refusal = format!(
            "refused 22: unit line {line} at byte {at}: it has the flag of dry gas without that \
             of a monitor"
        );
        assert_told_without_asking(changed(at + 2, 2), &refusal, UNITS);
    }
}

#[test]
fn a_molar_volume_out_of_range_is_told_without_asking() {
    for (litres, at, value) in [(1, 0, 1), (256, 1, 1), (16_777_216, 3, 1)] {
        let refusal = format!(
            "refused 23: fuel line 1 at byte 224: fuel 1 has molar-volume {litres}; its \
             molar-volume is from 20000 to 27000"
        );
        assert_told_without_asking(changed(224 + 20 + at, value), &refusal, FUELS);
    }
}

/// `lines` decides, also where this crate would let the book pass.
#[test]
fn a_refusal_by_lines_is_told() {
    let explanation = explained(&book_of(TEXT), None, "refused 22\n").unwrap();
    assert!(explanation.words.starts_with("BOOK: refused 22\n  to do: "));
    assert!(!explanation.is_clean);
}
