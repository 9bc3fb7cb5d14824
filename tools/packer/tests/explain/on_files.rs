//! The program on files, in a repository of its own with a stand-in for `lines`.

use crate::accounts::LISTS;
use crate::repository::{told, Repository, LINES};
use crate::{book_of, explained, in_the_second_values, COUNTS, EXPLAINED, PRINTED, TEXT};

#[test]
fn the_program_explains_files() {
    let lines = "[ \"$*\" = lines ] && cmp -s - north.book && cat printed";
    let repository = Repository::new("explains_files", lines);
    let clean = format!("{LISTS}delivery unit 1 fuel 1 month 1 amount 1\n");
    let words = EXPLAINED
        .replace("BOOK", "north.book")
        .replace("TEXT", "north.txt");
    let all_count = "north.book: no record is set aside\n".to_string();
    for (text, printed, status, words) in [
        (TEXT, PRINTED, 3, words.clone()),
        (&in_the_second_values(TEXT), PRINTED, 3, words),
        (&clean, &*format!("record 0 {COUNTS}\n"), 0, all_count),
    ] {
        repository.write("north.txt", text);
        repository.write("north.book", book_of(text).content);
        repository.write("printed", printed);
        let output = repository.explain(&["north.book", "north.txt"]);
        assert_eq!(told(&output), (Some(status), words, String::new()));
    }
    repository.write("north.book", "");
    let output = repository.explain(&["north.book"]);
    assert_eq!(output.status.code(), Some(3), "{output:?}");
    assert!(output
        .stdout
        .starts_with(b"north.book: refused 20: 0 bytes"));
}

#[test]
fn a_failure_is_told_and_nothing_is_printed() {
    let repository = Repository::new("failures", "echo why >&2; exit 1");
    repository.write("book", book_of(TEXT).content);
    repository.write("text", TEXT);
    let failed = "why\ntools/book: `lines` failed: exit status: 1\n";
    let missing = "none: No such file or directory (os error 2)\n";
    for (files, message) in [
        (&["book", "text"], failed),
        (&["none", "text"], missing),
        (&["book", "none"], missing),
    ] {
        let output = repository.explain(files);
        let wanted = (Some(1), String::new(), message.to_string());
        assert_eq!(told(&output), wanted);
    }
    // A `lines` that ends before it has read the book.
    repository.stand_in("tools/program", "exec <&-; echo record 0");
    let output = repository.explain(&["book"]);
    let message = "`lines` says of record 0 what isn't understood: `record 0`\n";
    assert_eq!(told(&output), (Some(1), String::new(), message.to_string()));
}

#[test]
fn lines_is_built_where_it_is_missing() {
    let repository = Repository::new("builds_lines", "cat printed");
    repository.write("book", book_of(TEXT).content);
    repository.write("printed", PRINTED);
    std::fs::remove_file(repository.home.join(LINES)).unwrap();

    repository.stand_in("tools/build", "echo \"asked for $*\" >&2; exit 1");
    let message = "asked for lines\ntools/book: `lines` isn't built\n".to_string();
    let output = repository.explain(&["book"]);
    assert_eq!(told(&output), (Some(1), String::new(), message));

    let built = format!("echo built >&2; touch {LINES}");
    repository.stand_in("tools/build", &built);
    let words = explained(&book_of(TEXT), None, PRINTED).unwrap().words;
    let words = words.replace("BOOK", "book");
    for message in ["built\n", ""] {
        let output = repository.explain(&["book"]);
        let wanted = (Some(3), words.clone(), message.to_string());
        assert_eq!(told(&output), wanted);
    }
}

#[test]
fn a_refused_book_needs_no_lines() {
    let repository = Repository::new("needs_no_lines", "exit 1");
    std::fs::remove_file(repository.home.join(LINES)).unwrap();
    repository.write("book", "cut");
    let (status, _, message) = told(&repository.explain(&["book"]));
    assert_eq!((status, message.as_str()), (Some(3), ""));
}
