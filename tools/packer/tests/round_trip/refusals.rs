//! Texts and books that are refused, by the program on files.

use packer::{pack, unpack};

use crate::bad_books::{changed, sized, BYTES};
use crate::bad_texts::{
    one_line_too_many, rows, BAD_AFTER_NO_YEAR, BAD_AFTER_SOUND, NO_YEAR, SOUND,
};
use crate::folder::fresh_folder;
use crate::program::refused;
use crate::random_books::MOST_LINES;
use crate::random_lines::LINE;

#[test]
fn a_bad_line_is_refused_at_its_number() {
    let folder = fresh_folder("bad_lines");
    // Or a fault of the start would pass for one of the bad line.
    assert!(pack(SOUND.as_bytes()).is_ok());
    for (start, table) in [(NO_YEAR, BAD_AFTER_NO_YEAR), (SOUND, BAD_AFTER_SOUND)] {
        for (bad, words) in rows(table) {
            let text = format!("{start}{bad} # why\n# more\n");
            let message = refused(&folder, "pack", text.as_bytes());
            assert!(message.starts_with(":4: "), "{bad}: {message}");
            assert!(message.contains(words), "{bad}: {message}");
        }
    }
}

#[test]
fn a_text_without_a_year_is_refused_at_its_end() {
    let folder = fresh_folder("no_year");
    for (text, line) in [("", 1), ("# nothing", 1), ("\n# nothing\n\n", 4)] {
        let message = refused(&folder, "pack", text.as_bytes());
        assert_eq!(
            message,
            format!(":{line}: the text ends and has said no year")
        );
    }
}

#[test]
fn a_line_that_is_no_text_is_refused_at_its_number() {
    let folder = fresh_folder("no_text");
    let message = refused(&folder, "pack", b"year 2010\n# caf\xe9\n");
    assert_eq!(message, ":2: this line isn't UTF-8 text");
}

#[test]
fn a_line_too_many_is_refused_at_its_number() {
    let folder = fresh_folder("line_too_many");
    for (text, line, words) in one_line_too_many() {
        let message = refused(&folder, "pack", text.as_bytes());
        assert!(message.starts_with(&format!(":{line}: ")), "{message}");
        assert!(message.contains(words), "{message}");
        let one_less: Vec<&str> = text.lines().take(line - 1).collect();
        assert!(pack(one_less.join("\n").as_bytes()).is_ok(), "{words}");
    }
}

#[test]
fn an_unsound_book_is_refused_with_its_number() {
    let folder = fresh_folder("bad_books");
    for (bytes, number, words) in changed() {
        let message = refused(&folder, "unpack", &bytes);
        assert!(
            message.starts_with(&format!(": refused {number}: ")),
            "{words}: {message}"
        );
        assert!(message.contains(words), "{words}: {message}");
    }
    // Of two faults the smaller number is told.
    let mut twice = BYTES;
    (twice[66], twice[34]) = (0, 2);
    assert!(refused(&folder, "unpack", &twice).starts_with(": refused 22: "));
}

#[test]
fn a_book_of_bad_size_is_refused_with_its_number() {
    let folder = fresh_folder("bad_sizes");
    for (records, units, fuels) in [(0, 0, 0), (MOST_LINES, 0, 0), (0, 64, 64)] {
        assert!(unpack(&sized(records, units, fuels)).is_ok());
    }
    let cases = [
        (vec![], 20, "0 bytes are no book"),
        (BYTES[..LINE - 1].to_vec(), 20, "31 bytes are no book"),
        (BYTES[1..].to_vec(), 20, "127 bytes are no book"),
        (sized(MOST_LINES + 1, 0, 0), 20, "4194336 bytes are no book"),
        (
            sized(1, 65, 0),
            22,
            "unit line 65 at byte 2080: a book has at most 64 unit lines",
        ),
        (
            sized(1, 0, 65),
            23,
            "fuel line 65 at byte 2080: a book has at most 64 fuel lines",
        ),
        (sized(0, 65, 65), 22, "unit line 65"),
    ];
    for (bytes, number, words) in cases {
        let message = refused(&folder, "unpack", &bytes);
        assert!(
            message.starts_with(&format!(": refused {number}: ")),
            "{message}"
        );
        assert!(message.contains(words), "{message}");
    }
}
