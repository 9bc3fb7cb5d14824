//! What becomes of a book and its records, as the program `lines` prints it. That program decides;
//! nothing here judges a record.

use std::ops::RangeInclusive;

const REFUSALS: RangeInclusive<u8> = 20..=23;

#[derive(Debug, PartialEq)]
pub enum Verdict {
    /// With the book's number.
    Refused(u8),
    /// For each record its reason, or none if it counts.
    Accepted(Vec<Option<u8>>),
}

impl Verdict {
    /// Reads what was printed of a book with so many records. All of it must be understood, or a
    /// record that is set aside could pass for one that counts.
    pub fn read(printed: &str, records: usize) -> Result<Verdict, String> {
        if !printed.is_empty() && !printed.ends_with('\n') {
            return Err("`lines` stopped in the midst of a line".to_string());
        }
        if let Some(number) = refusal(printed) {
            return Ok(Verdict::Refused(number));
        }
        let lines = printed.lines().enumerate();
        let reasons: Vec<_> = lines
            .map(|(i, line)| reason(i, line))
            .collect::<Result<_, _>>()?;
        if reasons.len() != records {
            let told = reasons.len();
            return Err(format!("`lines` told of {told} records, not of {records}"));
        }
        Ok(Verdict::Accepted(reasons))
    }
}

fn refusal(printed: &str) -> Option<u8> {
    let number = printed.strip_prefix("refused ")?.strip_suffix('\n')?;
    number
        .parse()
        .ok()
        .filter(|number| REFUSALS.contains(number))
}

fn reason(i: usize, line: &str) -> Result<Option<u8>, String> {
    let said = line.strip_prefix(&format!("record {i} "));
    let reason = match said.and_then(|said| said.split_once(' ')) {
        Some(("method" | "hour" | "anodes", _masses)) => return Ok(None),
        Some(("reason", number)) => number.parse().ok().filter(|&number| number > 0),
        _ => None,
    };
    let fault = || format!("`lines` says of record {i} what isn't understood: `{line}`");
    reason.map(Some).ok_or_else(fault)
}
