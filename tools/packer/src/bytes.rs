//! A whole book as bytes, and why bytes are no book: the numbers 20 to 23 of docs/RULES.md.

use std::fmt;

use crate::book::{Book, LENGTHS, LINE};
use crate::line::{decode_fuel, decode_unit, encode_fuel, encode_unit, Line, Trailer};
use crate::record_bytes::{decode_record, encode_record};

/// Why bytes are no sound book: the library's number for it, and what is wrong where.
#[derive(Debug, PartialEq)]
pub struct Refusal {
    pub number: u8,
    pub message: String,
}

impl fmt::Display for Refusal {
    fn fmt(&self, out: &mut fmt::Formatter) -> fmt::Result {
        write!(out, "refused {}: {}", self.number, self.message)
    }
}

pub fn encode(book: &Book) -> Vec<u8> {
    let unit_start = book.records().len() * LINE;
    let fuel_start = unit_start + book.units().len() * LINE;
    let trailer = Trailer {
        unit_start: unit_start as u32,
        fuel_start: fuel_start as u32,
        year: book.year(),
        warming: book.warming(),
    };
    let mut lines: Vec<Line> = Vec::new();
    lines.extend(book.records().iter().map(encode_record));
    lines.extend(book.units().iter().map(encode_unit));
    lines.extend(book.fuels().iter().map(encode_fuel));
    lines.push(trailer.encode());
    lines.concat()
}

pub fn decode(bytes: &[u8]) -> Result<Book, Refusal> {
    let (lines, last) = split_lines(bytes)?;
    let trailer_at = lines.len() * LINE;
    let trailer_fault = |fault| refusal(21, "the trailer", trailer_at, fault);
    let trailer = Trailer::decode(last).map_err(trailer_fault)?;
    check_starts(&trailer, trailer_at).map_err(trailer_fault)?;
    let mut book = Book::new(trailer.year, trailer.warming).map_err(trailer_fault)?;

    let first_unit = trailer.unit_start as usize / LINE;
    let first_fuel = trailer.fuel_start as usize / LINE;
    for (i, line) in lines[first_unit..first_fuel].iter().enumerate() {
        let added = decode_unit(line).and_then(|unit| book.add_unit(unit));
        let name = format!("unit line {}", i + 1);
        added.map_err(|fault| refusal(22, &name, (first_unit + i) * LINE, fault))?;
    }
    for (i, line) in lines[first_fuel..].iter().enumerate() {
        let added = decode_fuel(line).and_then(|fuel| book.add_fuel(fuel));
        let name = format!("fuel line {}", i + 1);
        added.map_err(|fault| refusal(23, &name, (first_fuel + i) * LINE, fault))?;
    }
    for (i, line) in lines[..first_unit].iter().enumerate() {
        let added = book.add_record(decode_record(line));
        // The length was right, so there is room; were there none, the record must not be lost.
        added.map_err(|fault| refusal(20, "record", i * LINE, fault))?;
    }
    Ok(book)
}

/// Gives the lines before the trailer, and the trailer.
fn split_lines(bytes: &[u8]) -> Result<(Vec<Line>, &Line), Refusal> {
    let length = bytes.len();
    let (shortest, longest) = LENGTHS.into_inner();
    let as_line = |chunk: &[u8]| std::array::from_fn(|at| chunk[at]);
    match bytes.split_last_chunk::<LINE>() {
        Some((before, trailer)) if length <= longest && length % LINE == 0 => {
            Ok((before.chunks_exact(LINE).map(as_line).collect(), trailer))
        }
        _ => Err(Refusal {
            number: 20,
            message: format!(
                "{length} bytes are no book; that is a multiple of {LINE}, {shortest} to {longest}"
            ),
        }),
    }
}

fn check_starts(trailer: &Trailer, trailer_at: usize) -> Result<(), String> {
    let (units, fuels) = (trailer.unit_start as usize, trailer.fuel_start as usize);
    if units % LINE != 0 || fuels % LINE != 0 {
        return Err(format!(
            "the starts {units} and {fuels} aren't both multiples of {LINE}"
        ));
    }
    if units > fuels || fuels > trailer_at {
        return Err(format!(
            "unit start {units}, fuel start {fuels} and trailer {trailer_at} aren't in this order"
        ));
    }
    Ok(())
}

fn refusal(number: u8, line: &str, at: usize, fault: String) -> Refusal {
    let message = format!("{line} at byte {at}: {fault}");
    Refusal { number, message }
}
