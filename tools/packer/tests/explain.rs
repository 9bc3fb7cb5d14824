//! What `explain` says of books, with stand-ins for what `lines` prints of them.

#[path = "explain/accounts.rs"]
mod accounts;
#[path = "explain/anodes.rs"]
mod anodes;
mod folder;
#[path = "explain/gas.rs"]
mod gas;
#[path = "explain/hours.rs"]
mod hours;
#[path = "explain/on_files.rs"]
mod on_files;
#[path = "explain/refused.rs"]
mod refused;
#[path = "explain/repeats.rs"]
mod repeats;
#[path = "explain/repository.rs"]
mod repository;
mod stand_in;
#[path = "explain/unsupported.rs"]
mod unsupported;

use accounts::{rows, LISTS};
use packer::{explain, pack, Explanation, Named};

const COUNTS: &str = "method 1 fossil co2-ug 1900000000000 ch4-ng 34200000000 n2o-ng 3420000000";

/// Three records are set aside. Comments, blank lines, mixed order and a return don't move a line.
const TEXT: &str = "\
# a comment: delivery unit 1 fuel 1 month 1 amount 1

year 2010
hour unit 1 hour 7 percent 12.5 flow 2000000   # 4
unit 1 rating 250
  # delivery
delivery  unit 1\tfuel 1 month 6 amount 1000 # 7
fuel 1 gas natural-gas heat 38000 co2 50000 ch4 900 n2o 90\r
delivery unit 1 fuel 2 month 6 amount 1000\r

unit 2 rating 410.5 monitor
hour unit 2 hour 7 percent 12.50 flow 2e6 # 12
delivery unit 1 fuel 1 month 13 amount 1000";

const PRINTED: &str = "\
record 0 reason 5
record 1 method 1 fossil co2-ug 1900000000000 ch4-ng 34200000000 n2o-ng 3420000000
record 2 reason 3
record 3 hour fossil co2-ug 12950000000000 ch4-ng 0 n2o-ng 0
record 4 reason 4
";

const EXPLAINED: &str = "\
BOOK: 3 of 5 records are set aside
TEXT:4: record 0: hour unit 1 hour 7 percent 12.5 flow 2000000
  reason 5: an hour of a unit without a monitor: unit 1 has none
  to do: correct the hour's unit, or add `monitor` to unit 1
TEXT:9: record 2: delivery unit 1 fuel 2 month 6 amount 1000
  reason 3: its fuel isn't listed: fuel 2 is none of 1
  to do: list fuel 2, or correct the record's fuel
TEXT:13: record 4: delivery unit 1 fuel 1 month 13 amount 1000
  reason 4: a value is out of range: month 13 isn't from 1 to 12
  to do: correct the month
";

fn named(name: &str, content: impl Into<Vec<u8>>) -> Named {
    Named {
        name: name.to_string(),
        content: content.into(),
    }
}

fn book_of(text: &str) -> Named {
    named("BOOK", pack(text.as_bytes()).unwrap())
}

fn in_the_second_values(text: &str) -> String {
    text.replace("year 2010", "year 2010 warming second")
}

fn explained(book: &Named, text: Option<&str>, printed: &str) -> Result<Explanation, String> {
    let text = text.map(|text| named("TEXT", text));
    explain(book, text.as_ref(), |asked| {
        assert_eq!(asked, book.content);
        Ok(printed.to_string())
    })
}

/// What is said of one record, of which so much was printed.
fn said_of(record: &str, printed: &str) -> String {
    let book = book_of(&format!("{LISTS}{record}\n"));
    let explanation = explained(&book, None, &format!("record 0 {printed}\n")).unwrap();
    assert!(!explanation.is_clean, "{record}");
    explanation.words
}

#[test]
fn each_reason_is_told_with_what_bears_it_out() {
    for row in rows() {
        let (reason, record) = (row.reason, row.record);
        let wanted = format!(
            "BOOK: 1 of 1 records is set aside\n\
             record 0: {record}\n  reason {reason}: {}\n  to do: {}\n",
            row.why, row.remedy
        );
        assert_eq!(said_of(record, &format!("reason {reason}")), wanted);
    }
}

#[test]
fn a_book_without_lists_says_so() {
    for (reason, what) in [(2, "unit"), (3, "fuel")] {
        let book = book_of("year 2010\ndelivery unit 1 fuel 1 month 1 amount 1\n");
        let printed = format!("record 0 reason {reason}\n");
        let words = explained(&book, None, &printed).unwrap().words;
        let detail = format!("isn't listed: the book has no {what} at all\n");
        assert!(words.contains(&detail), "{words}");
    }
}

#[test]
fn records_are_told_with_their_lines_of_the_text() {
    let explanation = explained(&book_of(TEXT), Some(TEXT), PRINTED).unwrap();
    assert_eq!(explanation.words, EXPLAINED);
    assert!(!explanation.is_clean);

    let without = explained(&book_of(TEXT), None, PRINTED).unwrap().words;
    let bare: String = EXPLAINED
        .split_inclusive('\n')
        .map(|line| {
            line.split_once(": record")
                .map_or(line.to_string(), |(_, rest)| format!("record{rest}"))
        })
        .collect();
    assert_eq!(without, bare);
}

#[test]
fn the_warming_values_change_no_explanation() {
    let second = in_the_second_values(TEXT);
    assert_ne!(book_of(&second).content, book_of(TEXT).content);
    let explanation = explained(&book_of(&second), Some(&second), PRINTED).unwrap();
    assert_eq!(explanation.words, EXPLAINED);
    assert!(!explanation.is_clean);

    let clean = explained(&book_of("year 2010 warming second\n"), None, "").unwrap();
    assert_eq!(clean.words, "BOOK: no record is set aside\n");
    assert!(clean.is_clean);
}

/// Gives what the example of README.md shows behind a command.
fn shown_by(command: &str) -> String {
    let readme = include_str!("../README.md");
    let (_, behind) = readme.split_once(&format!("    $ {command}\n")).unwrap();
    let shown = behind.lines().map_while(|line| line.strip_prefix("    "));
    let shown = shown.take_while(|line| !line.starts_with("$ "));
    shown.map(|line| format!("{line}\n")).collect()
}

#[test]
fn the_example_of_the_readme_is_true() {
    let text = named("north.txt", shown_by("cat north.txt"));
    let book = named("north.book", pack(&text.content).unwrap());
    let printed = format!(
        "record 0 {COUNTS}\nrecord 1 reason 4\nrecord 2 reason 5\n\
         record 3 hour fossil co2-ug 12950000000000 ch4-ng 0 n2o-ng 0\nrecord 4 reason 8\n\
         record 5 anodes fossil co2-ug 1513488480000000 ch4-ng 0 n2o-ng 0\nrecord 6 reason 8\n\
         record 7 reason 4\n"
    );
    let explanation = explain(&book, Some(&text), |_| Ok(printed)).unwrap();
    let command = "tools/book explain north.book north.txt";
    assert_eq!(explanation.words, shown_by(command));
}

/// Every record of a long book is counted and found, whichever are set aside.
#[test]
fn a_long_book_is_counted_right() {
    let lines: Vec<String> = (0..2047)
        .map(|i| format!("# record {i}\nhour unit 1 hour {i} percent 1 flow 1\n"))
        .collect();
    let text = format!("year 2010\n{}", lines.concat());
    let book = book_of(&text);
    for step in [1, 2, 3, 2046, 2047] {
        let is_aside = |i: usize| i % step == step - 1;
        let printed: String = (0..2047)
            .map(|i| match is_aside(i) {
                true => format!("record {i} reason 2\n"),
                false => format!("record {i} {COUNTS}\n"),
            })
            .collect();
        let words = explained(&book, Some(&text), &printed).unwrap().words;
        let count = 2047 / step;
        let verb = if count == 1 { "is" } else { "are" };
        let start = format!("BOOK: {count} of 2047 records {verb} set aside\n");
        assert!(words.starts_with(&start), "{step}");
        assert_eq!(words.lines().count(), 1 + 3 * count);
        for i in (0..2047).filter(|&i| is_aside(i)) {
            let line = format!(
                "TEXT:{}: record {i}: hour unit 1 hour {i} percent",
                2 * i + 3
            );
            assert!(words.contains(&line), "{line}");
        }
    }
}

#[test]
fn a_book_whose_records_all_count_is_one_line() {
    let none = book_of("year 2010\n");
    let one = book_of(&format!("{LISTS}delivery unit 1 fuel 1 month 1 amount 1\n"));
    for (book, printed) in [(none, ""), (one, &*format!("record 0 {COUNTS}\n"))] {
        let explanation = explained(&book, None, printed).unwrap();
        assert_eq!(explanation.words, "BOOK: no record is set aside\n");
        assert!(explanation.is_clean);
    }
}

#[test]
fn another_books_text_is_named_and_left_out() {
    let cases = [
        ("year 2011\n", "it packs to another book than BOOK"),
        (
            &TEXT.replace("month 13", "month 12"),
            "it packs to another book than BOOK",
        ),
        (
            &in_the_second_values(TEXT),
            "it packs to another book than BOOK",
        ),
        (
            "year 2010\nunit 0 rating 1\n",
            "line 2: unit 0 can't be; unit numbers start at 1",
        ),
    ];
    let book = book_of(TEXT);
    let without = explained(&book, None, PRINTED).unwrap().words;
    for (text, why) in cases {
        let words = explained(&book, Some(text), PRINTED).unwrap().words;
        let wanted = format!("TEXT isn't this book's text: {why}\n{without}");
        assert_eq!(words, wanted);
    }
}

#[test]
fn what_lines_never_prints_is_a_failure() {
    let whole = PRINTED.to_string();
    let wrong = [
        String::new(),
        whole.replace("record 4 reason 4\n", ""),
        whole.clone() + "record 5 reason 4\n",
        whole.strip_suffix('\n').unwrap().to_string(),
        whole.replace("record 2", "record 3"),
        whole.replace("reason 5", "reason five"),
        whole.replace("reason 5", "reason 0"),
        whole.replace("reason 5", "reason 256"),
        whole.replace("reason 5", "reason"),
        whole.replace("hour fossil", "fossil"),
        whole.replace("hour fossil", "anode fossil"),
        whole.replace('\n', "\n\n"),
        "refused 19\n".to_string(),
        "refused 20".to_string(),
        "refused 22\n".to_string() + &whole,
    ];
    for printed in wrong {
        let fault = explained(&book_of(TEXT), None, &printed).err();
        assert!(
            fault.is_some_and(|fault| fault.starts_with("`lines` ")),
            "{printed}"
        );
    }
}
