//! The text that the requirements prescribe for the program `annual`.

use crate::answer::{fresh, reported, wake};
use crate::book::Book;
use crate::checkpoint::LENGTH;
use crate::refusal::Refusal;

/// `annual` may hold only 64 KiB, so a longer book has the wrong length for it,
/// though the library takes it.
pub const LONGEST: usize = 65_536;

const NAMES: [&str; 5] = [
    "fossil-co2-kg",
    "biomass-co2-kg",
    "ch4-kg",
    "n2o-kg",
    "co2e-kg",
];

pub fn text(book: &[u8]) -> String {
    whole_job(book).unwrap_or_else(refusal_line)
}

fn whole_job(bytes: &[u8]) -> Result<String, Refusal> {
    if bytes.len() > LONGEST {
        return Err(Refusal::BookLength);
    }
    let book = Book::read(bytes)?;
    let (mut start, mut end) = ([0; LENGTH], [0; LENGTH]);
    fresh(bytes, &mut start);
    wake(bytes, &start, u32::MAX, &mut end);
    let report = reported(bytes, &end)?;
    let mut text = format!("year {}\nrecords {}\n", book.year, book.record_count());
    for (name, figure) in NAMES.iter().zip(report.figures) {
        text += &format!("{name} {figure}\n");
    }
    let decision = if report.must_report { "yes" } else { "no" };
    text += &format!("must-report {decision}\n");
    Ok(text)
}

fn refusal_line(refusal: Refusal) -> String {
    let number = refusal.number();
    match refusal {
        Refusal::SetAside { first, reason } => {
            format!("refused {number} record {first} reason {reason}\n")
        }
        _ => format!("refused {number}\n"),
    }
}

#[cfg(test)]
mod tests {
    use super::*;
    use crate::LINE;

    /// Records of kind 0 and the trailer.
    fn book(length: usize) -> Vec<u8> {
        let place = length - LINE;
        let start = (place as u32).to_le_bytes();
        let mut book = vec![0; length];
        book[place..place + 6].copy_from_slice(b"STCB\x01\x00");
        book[place + 8..place + 12].copy_from_slice(&start);
        book[place + 12..place + 16].copy_from_slice(&start);
        book[place + 16..place + 18].copy_from_slice(&2010u16.to_le_bytes());
        book
    }

    #[test]
    fn annual_keeps_a_limit_of_its_own() {
        assert_eq!(text(&book(LONGEST)), "refused 41 record 0 reason 1\n");
        let longer = book(LONGEST + LINE);
        assert_eq!(text(&longer), "refused 20\n");
        assert!(Book::read(&longer).is_ok());
    }
}
