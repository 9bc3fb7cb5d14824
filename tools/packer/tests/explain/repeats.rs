//! What is said of a record that repeats an earlier one: which that is, and what to do.

use crate::{book_of, explained};

const UNITS: &str = "\
year 2010
unit 2 rating 410.5 monitor
unit 3 rating 410.5 monitor
unit 258 rating 410.5 monitor
";
pub const GENERAL_REMEDY: &str =
    "keep the right record and take the others out, or correct the unit, the hour or the month";

/// What a book may have one record of. All are of unit 2 and have the number 7.
#[derive(Clone, Copy)]
struct Once {
    sent: &'static str,
    with_other_values: &'static str,
    /// What `lines` prints of one that counts.
    counts: &'static str,
    number: &'static str,
    named: &'static str,
    remedy: &'static str,
}

const HOUR: Once = Once {
    sent: "hour unit 2 hour 7 percent 12.5 flow 2000000",
    with_other_values: "hour unit 2 hour 7 percent 0.25 flow 0.25",
    counts: "hour fossil co2-ug 12950000000000 ch4-ng 0 n2o-ng 0",
    number: "hour",
    named: "hour 7 of unit 2",
    remedy: "keep the right record of this hour and take the others out, or correct the unit or \
             the hour",
};
const ANODES: Once = Once {
    sent: "anodes unit 2 month 7 metal 1000000 use 420 sulphur 1.25 ash 0.40 other 0.00",
    with_other_values: "anodes unit 2 month 7 metal 1 use 1 sulphur 0.00 ash 0.00 other 0.00",
    counts: "anodes fossil co2-ug 1513488480000000 ch4-ng 0 n2o-ng 0",
    number: "month",
    named: "anodes of unit 2 for month 7",
    remedy: "keep the right record of this month's anodes and take the others out, or correct \
             the unit or the month",
};

/// A record, and what `lines` prints behind its index.
type Told<'a> = (&'a str, &'a str);

impl Once {
    fn first(&self) -> Told<'_> {
        (self.sent, self.counts)
    }

    fn again(&self) -> Told<'_> {
        (self.sent, "reason 8")
    }

    fn said_of_repeat(&self, i: usize, record: &str, first: &str) -> String {
        let detail = format!(": {first} has {} too", self.named);
        said(i, record, &detail, self.remedy)
    }

    /// The last of these records is the one with reason 8, and names the one at this index.
    fn assert_names(&self, told: &[Told], first: usize) {
        let i = told.len() - 1;
        let wanted = self.said_of_repeat(i, told[i].0, &format!("record {first}"));
        assert_eq!(said_of_repeats(told).0, wanted, "{told:?}");
    }
}

/// What is said of a record at this index, with reason 8.
fn said(i: usize, record: &str, detail: &str, remedy: &str) -> String {
    format!(
        "record {i}: {record}\n  reason 8: it repeats an earlier record{detail}\n  to do: \
         {remedy}\n"
    )
}

/// Gives the text of these records, and what `lines` prints of its book.
fn text_of(told: &[Told]) -> (String, String) {
    let records = told.iter().map(|(record, _)| format!("{record}\n"));
    let printed = told.iter().enumerate();
    let printed = printed.map(|(i, (_, words))| format!("record {i} {words}\n"));
    (
        UNITS.to_string() + &records.collect::<String>(),
        printed.collect(),
    )
}

/// Gives the lines of each record with reason 8, and how many records are set aside.
fn said_of_repeats(told: &[Told]) -> (String, usize) {
    let (text, printed) = text_of(told);
    let words = explained(&book_of(&text), None, &printed).unwrap().words;
    let lines: Vec<&str> = words.lines().skip(1).collect();
    let of_repeats = lines
        .chunks(3)
        .filter(|lines| lines[1].starts_with("  reason 8: "));
    let said = of_repeats.flatten().map(|line| format!("{line}\n"));
    (said.collect(), lines.len() / 3)
}

#[test]
fn a_repeat_names_the_record_before() {
    let delivery = ("delivery unit 2 fuel 1 month 7 amount 1000", "reason 3");
    for once in [HOUR, ANODES] {
        let with_other_values = (once.with_other_values, "reason 8");
        once.assert_names(&[once.first(), once.again()], 0);
        once.assert_names(&[once.first(), with_other_values], 0);
        once.assert_names(&[once.first(), delivery, once.again()], 0);
    }
}

/// Each differs in one byte from unit 2 or from the number 7.
#[test]
fn other_numbers_and_other_units_are_passed_over() {
    for once in [HOUR, ANODES] {
        let numbered = |number| {
            let [from, to] = [7, number].map(|value| format!("{} {value} ", once.number));
            once.sent.replace(&from, &to)
        };
        let others = [
            once.sent.replace("unit 2 ", "unit 3 "),
            once.sent.replace("unit 2 ", "unit 258 "),
            numbered(8),
            numbered(263),
        ];
        let mut told: Vec<Told> = others.iter().map(|other| (&**other, once.counts)).collect();
        told.extend([once.first(), once.again()]);
        once.assert_names(&told, 4);
    }
}

#[test]
fn whatever_became_of_the_first_it_is_named() {
    // The raw ones have a stray byte in the midst and one at the end, which no words say.
    let hours = [
        (
            "hour unit 2 hour 7 percent bits 7FC00000 flow 1",
            "reason 4",
        ),
        (
            "hour unit 2 hour 7 percent 1 flow 1 moisture 12.5",
            "reason 1",
        ),
        (
            "raw 0200020001000700000000000000000000000000000000000000000000000000",
            "reason 1",
        ),
        (
            "raw 0200020000000700000000000000000000000000000000000000000000000001",
            "reason 1",
        ),
    ];
    let anodes = [
        (
            "anodes unit 2 month 7 metal 1 use 1001 sulphur 0.00 ash 0.00 other 0.00",
            "reason 4",
        ),
        (
            "anodes unit 2 month 7 metal 1 use 1 sulphur 60.00 ash 60.00 other 0.00",
            "reason 4",
        ),
        (
            "raw 0400020001000700000000000000000000000000000000000000000000000000",
            "reason 1",
        ),
        (
            "raw 0400020000000700000000000000000000000000000000000000000000000001",
            "reason 1",
        ),
    ];
    for (once, firsts) in [(HOUR, hours), (ANODES, anodes)] {
        for first in firsts {
            once.assert_names(&[first, once.again()], 0);
        }
    }
}

/// They have the bytes of unit and number, and none is of the kind. Neither is an hour a repeat of
/// anodes, nor the other way round.
#[test]
fn only_a_record_of_the_same_kind_is_named() {
    let others = [
        (
            "delivery unit 2 fuel 0 month 7 amount 1095237632",
            "reason 3",
        ),
        (
            "raw 0000020000000700000048410024F44900000000000000000000000000000000",
            "reason 1",
        ),
        (
            "raw 0300020000000700000048410024F44900000000000000000000000000000000",
            "reason 1",
        ),
        (
            "raw 8200020000000700000048410024F44900000000000000000000000000000000",
            "reason 1",
        ),
        (
            "raw 8400020000000700000048410024F44900000000000000000000000000000000",
            "reason 1",
        ),
    ];
    for (once, of_the_other_kind) in [(HOUR, ANODES), (ANODES, HOUR)] {
        for other in others.into_iter().chain([of_the_other_kind.first()]) {
            once.assert_names(&[other, once.first(), once.again()], 1);
        }
    }
}

#[test]
fn every_further_record_names_the_first() {
    for once in [HOUR, ANODES] {
        for further in [2, 2043] {
            let mut told = vec![once.first()];
            told.resize(1 + further, once.again());
            let (said, count) = said_of_repeats(&told);
            let wanted: String = (1..=further)
                .map(|i| once.said_of_repeat(i, once.sent, "record 0"))
                .collect();
            assert!(said == wanted, "{further} more: {}", once.sent);
            assert_eq!(count, further);
        }
    }
}

/// `lines` decides: where no earlier record bears it out, the general words are all that is said.
#[test]
fn a_repeat_of_nothing_is_told_in_general_words() {
    for once in [HOUR, ANODES] {
        let (told, _) = said_of_repeats(&[once.again(), once.first()]);
        assert_eq!(told, said(0, once.sent, "", GENERAL_REMEDY));
    }
}

#[test]
fn the_first_is_told_with_its_line_of_the_text() {
    for once in [HOUR, ANODES] {
        let (sent, counts) = once.first();
        let text = format!("{UNITS}{sent}\n# resent after a gap\n{sent}\n");
        let printed = format!("record 0 {counts}\nrecord 1 reason 8\n");
        let explanation = explained(&book_of(&text), Some(&text), &printed).unwrap();
        let repeat = once.said_of_repeat(1, sent, "record 0 at TEXT:5");
        let wanted = format!("BOOK: 1 of 2 records is set aside\nTEXT:7: {repeat}");
        assert_eq!(explanation.words, wanted);
        assert!(!explanation.is_clean);
    }
}

/// As many as a book can have, of 15 units. The second half is the first, turned round, so that
/// each repeat is at another distance from its first, up to the whole book.
#[test]
fn every_repeat_of_a_longest_book_names_its_first() {
    let (units, half) = (15, (131_071 - 15) / 2);
    let unit = |number| format!("unit {number} rating 1 monitor\n");
    let lists: String = (1..=units).map(unit).collect();
    let hour = |i| format!("hour unit {} hour {}", 1 + i / 8_784, 1 + i % 8_784);
    let order = (0..half).chain((0..half).rev());
    let records = order.map(|i| format!("{} percent 1 flow 1\n", hour(i)));
    let book = book_of(&format!(
        "year 2010\n{lists}{}",
        records.collect::<String>()
    ));
    let printed = (0..2 * half).map(|i| match i < half {
        true => format!("record {i} {}\n", HOUR.counts),
        false => format!("record {i} reason 8\n"),
    });
    let words = explained(&book, None, &printed.collect::<String>()).unwrap();
    let said: Vec<&str> = words.words.lines().skip(1).collect();
    assert_eq!(said.len(), 3 * half);
    for (lines, first) in said.chunks(3).zip((0..half).rev()) {
        let again = 2 * half - 1 - first;
        assert!(lines[0].starts_with(&format!("record {again}: {} ", hour(first))));
        assert!(
            lines[1].contains(&format!(": record {first} has hour ")),
            "{}",
            lines[1]
        );
    }
}
