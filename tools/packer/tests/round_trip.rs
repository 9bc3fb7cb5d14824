//! Text to book and book to text, by the library on thousands of random books and by the program on
//! files.

#[path = "round_trip/anodes.rs"]
mod anodes;
#[path = "round_trip/bad_books.rs"]
mod bad_books;
#[path = "round_trip/bad_texts.rs"]
mod bad_texts;
#[path = "round_trip/dice.rs"]
mod dice;
#[path = "round_trip/every_sort.rs"]
mod every_sort;
mod folder;
#[path = "round_trip/gas.rs"]
mod gas;
#[path = "round_trip/program.rs"]
mod program;
#[path = "round_trip/random_books.rs"]
mod random_books;
#[path = "round_trip/random_lines.rs"]
mod random_lines;
#[path = "round_trip/random_records.rs"]
mod random_records;
#[path = "round_trip/refusals.rs"]
mod refusals;

use std::fs;
use std::path::Path;

use bad_books::{BYTES, TEXT};
use dice::Dice;
use folder::fresh_folder;
use packer::{pack, unpack};
use program::{names_in, run};
use random_books::{Sample, LONGEST};
use random_lines::LINE;

const BOOKS: usize = 3000;
const SEED: u64 = 2010;

const USAGE: &str = "\
usage: tools/book pack TEXT BOOK         packs a text into a book
       tools/book unpack BOOK TEXT       unpacks a book into its text
       tools/book explain BOOK [TEXT]    says which records are set aside, why, and what to do
";

fn each_random_book(mut visit: impl FnMut(Sample, &mut Dice)) {
    let mut dice = Dice::new(SEED);
    for _ in 0..BOOKS {
        let sample = Sample::random(&mut dice);
        visit(sample, &mut dice);
    }
}

#[test]
fn a_random_book_gives_its_text() {
    each_random_book(|sample, _| assert_eq!(unpack(&sample.bytes()), Ok(sample.text())));
}

#[test]
fn a_random_text_gives_its_book() {
    each_random_book(|sample, _| assert_eq!(pack(sample.text().as_bytes()), Ok(sample.bytes())));
}

#[test]
fn the_longest_book_gives_its_text_and_the_text_its_book() {
    let sample = Sample::longest(&mut Dice::new(SEED));
    let (bytes, text) = (sample.bytes(), sample.text());
    assert_eq!(bytes.len(), LONGEST);
    // Of so long a text, what differs is no line to print.
    assert!(unpack(&bytes).is_ok_and(|unpacked| unpacked == text));
    assert!(pack(text.as_bytes()).is_ok_and(|packed| packed == bytes));
}

#[test]
fn a_text_in_other_words_gives_the_same_book() {
    each_random_book(|sample, dice| {
        let text = sample.loose_text(dice);
        assert_eq!(pack(text.as_bytes()), Ok(sample.bytes()), "{text}");
    });
}

/// Every bit of a book is either said by its text or fixed by the rules.
#[test]
fn a_changed_byte_is_refused_or_said() {
    let (mut said, mut refusals) = (0, 0);
    each_random_book(|sample, dice| {
        let mut bytes = sample.bytes();
        let at = dice.below(bytes.len() as u64) as usize;
        bytes[at] ^= 1 + dice.below(255) as u8;
        match unpack(&bytes) {
            Ok(text) => {
                said += 1;
                assert_ne!(text, sample.text());
                assert_eq!(pack(text.as_bytes()), Ok(bytes));
            }
            Err(refusal) => {
                refusals += 1;
                let in_records = at < LINE * sample.records.len();
                assert!(!in_records, "byte {at} of a record: {refusal}");
            }
        }
    });
    assert!(
        said > 500 && refusals > 500,
        "{said} said, {refusals} refused"
    );
}

#[test]
fn the_book_of_the_format_page_is_its_text() {
    assert_eq!(unpack(&BYTES), Ok(TEXT.to_string()));
    assert_eq!(pack(TEXT.as_bytes()), Ok(BYTES.to_vec()));
}

/// All that the word changes is byte 20 of the trailer, and a text without it is as it was.
#[test]
fn the_line_of_the_year_names_the_warming_values() {
    for (said, unpacked, byte) in [
        ("year 2010", "year 2010", 0),
        ("year 2010 warming first", "year 2010", 0),
        ("year 2010 warming second", "year 2010 warming second", 1),
    ] {
        let with = |words: &str| TEXT.replace("year 2010", words);
        let mut bytes = BYTES.to_vec();
        bytes[3 * LINE + 20] = byte;
        assert_eq!(unpack(&bytes), Ok(with(unpacked)));
        assert_eq!(pack(with(said).as_bytes()), Ok(bytes), "{said}");
    }
}

#[test]
fn the_line_of_a_unit_says_whether_its_monitor_is_dry() {
    for (end, flags) in [("", 0), (" monitor", 1), (" monitor dry", 3)] {
        let text = TEXT.replace("rating 250.0", &format!("rating 250.0{end}"));
        let mut bytes = BYTES.to_vec();
        bytes[LINE + 2] = flags;
        assert_eq!(unpack(&bytes), Ok(text.clone()));
        assert_eq!(pack(text.as_bytes()), Ok(bytes), "{end}");
    }
}

#[test]
fn the_molar_volume_of_a_fuel_is_its_bytes_20_to_23() {
    for (said, unpacked, litres) in [
        ("", "", 0_u32),
        (" molar-volume 0", "", 0),
        (" molar-volume 20000", " molar-volume 20000", 20_000),
        (" molar-volume 024060", " molar-volume 24060", 24_060),
        (" molar-volume 27000", " molar-volume 27000", 27_000),
    ] {
        for (kind, words) in [(3, "gas"), (2, "liquid"), (1, "solid")] {
            let with = |end| {
                let other = TEXT.replace("gas natural-gas", &format!("{words} other"));
                other.replace("n2o 90", &format!("n2o 90{end}"))
            };
            let mut bytes = BYTES.to_vec();
            bytes[2 * LINE + 2..2 * LINE + 4].copy_from_slice(&[kind, 0]);
            bytes[2 * LINE + 20..2 * LINE + 24].copy_from_slice(&litres.to_le_bytes());
            assert_eq!(unpack(&bytes), Ok(with(unpacked)));
            assert_eq!(pack(with(said).as_bytes()), Ok(bytes), "{words}{said}");
        }
    }
}

/// In tenths, whether or not the library lets it count.
#[test]
fn the_moisture_of_an_hour_is_its_bytes_16_and_17() {
    let with = |end| format!("year 2010\nhour unit 1 hour 7 percent 12.5 flow 2000000{end}\n");
    let bare = pack(with("").as_bytes()).unwrap();
    for (said, unpacked, tenths) in [
        ("", "", 0),
        (" moisture 0", "", 0),
        (" moisture 0.0", "", 0),
        (" moisture 0.1", " moisture 0.1", 1_u16),
        (" moisture 12", " moisture 12.0", 120),
        (" moisture 012.5", " moisture 12.5", 125),
        (" moisture 25.6", " moisture 25.6", 256),
        (" moisture 100", " moisture 100.0", 1_000),
        (" moisture 100.1", " moisture 100.1", 1_001),
        (" moisture 6553.5", " moisture 6553.5", 65_535),
    ] {
        let mut bytes = bare.clone();
        bytes[16..18].copy_from_slice(&tenths.to_le_bytes());
        assert_eq!(unpack(&bytes), Ok(with(unpacked)));
        assert_eq!(pack(with(said).as_bytes()), Ok(bytes), "{said}");
    }
}

#[test]
fn the_sample_book_is_its_text() {
    let examples = Path::new(env!("CARGO_MANIFEST_DIR")).join("../../examples");
    let text = fs::read(examples.join("plant.txt")).unwrap();
    let book = fs::read(examples.join("plant.book")).unwrap();
    assert_eq!(pack(&text).as_deref(), Ok(book.as_slice()));
}

#[test]
fn the_program_turns_files_both_ways() {
    let folder = fresh_folder("both_ways");
    let [text, book, back] = ["plant.txt", "plant.book", "back.txt"].map(|name| folder.join(name));
    fs::write(&text, format!("# a comment\n{TEXT}")).unwrap();
    fs::write(&back, "an older text").unwrap();
    // A second name of the old file shows that it is replaced and not written over.
    let older = folder.join("older.txt");
    fs::hard_link(&back, &older).unwrap();
    for arguments in [
        ["pack".as_ref(), &*text, &*book],
        ["unpack".as_ref(), &*book, &*back],
    ] {
        let ended = run(&arguments);
        let told = (ended.printed.as_str(), ended.message.as_str());
        assert_eq!((ended.status, told), (Some(0), ("", "")));
    }
    assert_eq!(fs::read(&book).unwrap(), BYTES);
    assert_eq!(fs::read_to_string(&back).unwrap(), TEXT);
    assert_eq!(fs::read_to_string(&older).unwrap(), "an older text");
    let names = ["back.txt", "older.txt", "plant.book", "plant.txt"];
    assert_eq!(names_in(&folder), names);
}

#[test]
fn wrong_arguments_get_the_usage() {
    let folder = fresh_folder("wrong_arguments");
    let (from, to) = (folder.join("from"), folder.join("to"));
    fs::write(&from, TEXT).unwrap();
    let wrong: [&[&Path]; 8] = [
        &[],
        &["pack".as_ref()],
        &["pack".as_ref(), &from],
        &["pack".as_ref(), &from, &to, &to],
        &["explain".as_ref()],
        &["explain".as_ref(), &from, &from, &from],
        &["print".as_ref(), &from, &to],
        &["--help".as_ref(), &from],
    ];
    for arguments in wrong {
        let ended = run(arguments);
        assert_eq!(ended.status, Some(2), "{arguments:?}");
        assert_eq!(
            (ended.printed.as_str(), ended.message.as_str()),
            ("", USAGE)
        );
    }
    assert_eq!(names_in(&folder), ["from"]);
}

#[test]
fn help_is_the_usage_on_standard_output() {
    let ended = run(&["--help".as_ref()]);
    assert_eq!(ended.status, Some(0));
    assert_eq!(
        (ended.printed.as_str(), ended.message.as_str()),
        (USAGE, "")
    );
}

#[test]
fn a_file_that_cannot_be_read_or_written_is_named() {
    let folder = fresh_folder("files");
    let [text, missing, nested] = ["text", "missing", "none/book"].map(|name| folder.join(name));
    fs::write(&text, TEXT).unwrap();
    let cases = [
        (&missing, &nested, &missing),
        (&text, &nested, &nested),
        (&text, &text, &text),
    ];
    for (from, to, named) in cases {
        let ended = run(&["pack".as_ref(), from, to]);
        assert_eq!(ended.status, Some(1), "{}", ended.message);
        let start = format!("{}: ", named.display());
        assert!(ended.message.starts_with(&start), "{}", ended.message);
    }
    let onto_folder = run(&["pack".as_ref(), &text, &folder]);
    assert_eq!(onto_folder.status, Some(1));
    assert!(onto_folder.message.ends_with("no plain file\n"));
    assert_eq!(fs::read_to_string(&text).unwrap(), TEXT);
    assert_eq!(names_in(&folder), ["text"]);
}
