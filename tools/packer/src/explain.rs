//! In words: why a book is refused, or which of its records are set aside, and what to do.

use crate::book::Book;
use crate::bytes::{decode, encode};
use crate::parse::parse;
use crate::reasons::Account;
use crate::repeats::Firsts;
use crate::verdict::Verdict;
use crate::write::record_line;

/// A file that was read, with the name that the caller has for it.
pub struct Named {
    pub name: String,
    pub content: Vec<u8>,
}

pub struct Explanation {
    pub words: String,
    /// Whether the book is accepted and all of its records count.
    pub is_clean: bool,
}

/// Explains a book, with the lines of its text where that is given. `ask_lines` gives what the
/// program `lines` prints of a book that isn't refused; that alone says which records are set aside.
pub fn explain(
    book: &Named,
    text: Option<&Named>,
    ask_lines: impl FnOnce(&[u8]) -> Result<String, String>,
) -> Result<Explanation, String> {
    let (places, note) = match text.map(|text| places_in(text, book)) {
        None => (Vec::new(), String::new()),
        Some(Ok(places)) => (places, String::new()),
        Some(Err(note)) => (Vec::new(), note),
    };
    let mut explanation = match decode(&book.content) {
        Err(refusal) => refused(&book.name, refusal.number, &refusal.to_string()),
        Ok(decoded) => {
            let printed = ask_lines(&book.content)?;
            match Verdict::read(&printed, decoded.records().len())? {
                Verdict::Refused(number) => {
                    refused(&book.name, number, &format!("refused {number}"))
                }
                Verdict::Accepted(reasons) => accepted(&book.name, &decoded, &reasons, &places),
            }
        }
    };
    explanation.words.insert_str(0, &note);
    Ok(explanation)
}

/// Gives where each record of the book stands in its text, such as `plant.txt:57`. A text edited
/// since would show wrong lines, so it must pack to this very book.
fn places_in(text: &Named, book: &Named) -> Result<Vec<String>, String> {
    let name = &text.name;
    let other = |why: String| format!("{name} isn't this book's text: {why}\n");
    let parsed = parse(&text.content)
        .map_err(|fault| other(format!("line {}: {}", fault.line, fault.message)))?;
    if encode(&parsed.book) != book.content {
        return Err(other(format!(
            "it packs to another book than {}",
            book.name
        )));
    }
    let lines = parsed.record_lines.iter();
    Ok(lines.map(|line| format!("{name}:{line}")).collect())
}

fn refused(name: &str, number: u8, refusal: &str) -> Explanation {
    let remedy = match number {
        20 | 21 => "copy it anew, or pack it anew from its text; it may be no book at all",
        22 => "copy it anew, or correct the units in its text and pack it anew",
        _ => "copy it anew, or correct the fuels in its text and pack it anew",
    };
    Explanation {
        words: format!("{name}: {refusal}\n  to do: {remedy}\n"),
        is_clean: false,
    }
}

fn accepted(name: &str, book: &Book, reasons: &[Option<u8>], places: &[String]) -> Explanation {
    let firsts = Firsts::of(book);
    let mut words = String::new();
    for (i, (record, reason)) in book.records().iter().zip(reasons).enumerate() {
        if let Some(reason) = *reason {
            let place = places.get(i).map_or(String::new(), |at| format!("{at}: "));
            let said = record_line(record);
            let Account { why, remedy } = Account::of(reason, i, book, &firsts, places);
            words += &format!("{place}record {i}: {said}\n");
            words += &format!("  reason {reason}: {why}\n  to do: {remedy}\n");
        }
    }
    let of = reasons.len();
    let count = match reasons.iter().flatten().count() {
        0 => "no record is set aside".to_string(),
        1 => format!("1 of {of} records is set aside"),
        count => format!("{count} of {of} records are set aside"),
    };
    Explanation {
        is_clean: words.is_empty(),
        words: format!("{name}: {count}\n{words}"),
    }
}
