//! A text for people, read into a book. The grammar stands in README.md beside this folder.

use crate::book::{Book, Monitor, Unit, Warming, LINE};
use crate::fuel::{Class, Fuel, Kind};
use crate::record::{Anodes, Carbon, Delivery, Heat, Hour, Record};
use crate::words::Words;

/// What is wrong with a text, and at which of its lines, counting from 1.
#[derive(Debug, PartialEq)]
pub struct TextFault {
    pub line: usize,
    pub message: String,
}

pub struct Text {
    pub book: Book,
    /// The line of each record, counting from 1.
    pub record_lines: Vec<usize>,
}

pub fn parse(text: &[u8]) -> Result<Text, TextFault> {
    let mut book = None;
    let mut record_lines = Vec::new();
    let mut last = 1;
    for (i, line) in text.split(|&byte| byte == b'\n').enumerate() {
        last = i + 1;
        parse_line(line, &mut book).map_err(|message| TextFault {
            line: last,
            message,
        })?;
        let records = book.as_ref().map_or(0, |book: &Book| book.records().len());
        record_lines.resize(records, last);
    }
    match book {
        Some(book) => Ok(Text { book, record_lines }),
        None => Err(TextFault {
            line: last,
            message: "the text ends and has said no year".to_string(),
        }),
    }
}

fn parse_line(line: &[u8], book: &mut Option<Book>) -> Result<(), String> {
    let line = std::str::from_utf8(line).map_err(|_| "this line isn't UTF-8 text")?;
    let mut words = Words::of(line);
    let Some(first) = words.next() else {
        return Ok(());
    };
    match (first, book.as_mut()) {
        ("year", None) => *book = Some(parse_year(&mut words)?),
        ("year", Some(_)) => return Err("the year is said a second time".to_string()),
        (_, None) => return Err(format!("the year comes first, before `{first}`")),
        (_, Some(book)) => add_line(first, &mut words, book)?,
    }
    Ok(())
}

fn parse_year(words: &mut Words) -> Result<Book, String> {
    let year = words.number16("year")?;
    let warming = if words.takes("warming") {
        words.one_of(&Warming::ALL, Warming::word)?
    } else {
        Warming::First
    };
    words.end()?;
    Book::new(year, warming)
}

fn add_line(first: &str, words: &mut Words, book: &mut Book) -> Result<(), String> {
    match first {
        "unit" => book.add_unit(parse_unit(words)?),
        "fuel" => book.add_fuel(parse_fuel(words)?),
        "delivery" => book.add_record(Record::Delivery(parse_delivery(words)?)),
        "gas-delivery" => book.add_record(Record::Delivery(parse_gas_delivery(words)?)),
        "hour" => book.add_record(Record::Hour(parse_hour(words)?)),
        "anodes" => book.add_record(Record::Anodes(parse_anodes(words)?)),
        "raw" => book.add_record(Record::Raw(parse_raw(words)?)),
        _ => Err(format!(
            "no line starts with `{first}`; lines start with unit, fuel, delivery, gas-delivery, \
             hour, anodes or raw"
        )),
    }
}

fn parse_unit(words: &mut Words) -> Result<Unit, String> {
    let number = words.number16("unit")?;
    words.expect("rating")?;
    let rating = words.tenths32("rating")?;
    let monitor = monitor_if_said(words)?;
    words.end()?;
    Ok(Unit {
        number,
        rating,
        monitor,
    })
}

fn monitor_if_said(words: &mut Words) -> Result<Option<Monitor>, String> {
    match (words.takes("monitor"), words.takes("dry")) {
        (false, false) => Ok(None),
        (true, false) => Ok(Some(Monitor::Wet)),
        (true, true) => Ok(Some(Monitor::Dry)),
        (false, true) => Err(
            "`dry` has no `monitor` before it; an analyser of dry gas is said by `monitor dry`"
                .to_string(),
        ),
    }
}

fn parse_fuel(words: &mut Words) -> Result<Fuel, String> {
    let number = words.number16("fuel")?;
    let kind = words.one_of(&Kind::ALL, Kind::word)?;
    let class = words.one_of(&Class::ALL, Class::word)?;
    let heat = number_if_said(words, "heat")?.unwrap_or(0);
    let co2 = number_after(words, "co2")?;
    let ch4 = number_after(words, "ch4")?;
    let n2o = number_after(words, "n2o")?;
    let molar_volume = number_if_said(words, "molar-volume")?.unwrap_or(0);
    words.end()?;
    Ok(Fuel {
        number,
        kind,
        class,
        heat,
        co2,
        ch4,
        n2o,
        molar_volume,
    })
}

fn parse_delivery(words: &mut Words) -> Result<Delivery, String> {
    let unmeasured = unmeasured_delivery(words)?;
    let heat = heat_if_said(words)?;
    let carbon = number_if_said(words, "carbon")?.map(Carbon::PerUnit);
    words.end()?;
    Ok(Delivery {
        heat,
        carbon,
        ..unmeasured
    })
}

fn parse_gas_delivery(words: &mut Words) -> Result<Delivery, String> {
    let unmeasured = unmeasured_delivery(words)?;
    let carbon = Carbon::ByWeight {
        per_kg: number_after(words, "carbon")?,
        molecular_weight: number_after(words, "molecular-weight")?,
    };
    let heat = heat_if_said(words)?;
    words.end()?;
    Ok(Delivery {
        heat,
        carbon: Some(carbon),
        ..unmeasured
    })
}

/// Reads what a delivery of either sort starts with.
fn unmeasured_delivery(words: &mut Words) -> Result<Delivery, String> {
    Ok(Delivery {
        unit: short_after(words, "unit")?,
        fuel: short_after(words, "fuel")?,
        month: short_after(words, "month")?,
        amount: number_after(words, "amount")?,
        heat: None,
        carbon: None,
    })
}

fn heat_if_said(words: &mut Words) -> Result<Option<Heat>, String> {
    if let Some(value) = number_if_said(words, "low-heat")? {
        return Ok(Some(Heat::Low(value)));
    }
    Ok(number_if_said(words, "heat")?.map(Heat::High))
}

fn parse_hour(words: &mut Words) -> Result<Hour, String> {
    let unit = short_after(words, "unit")?;
    let hour = short_after(words, "hour")?;
    words.expect("percent")?;
    let percent = words.single("percent")?;
    words.expect("flow")?;
    let flow = words.single("flow")?;
    let moisture = if words.takes("moisture") {
        words.tenths16("moisture")?
    } else {
        0
    };
    words.end()?;
    Ok(Hour {
        unit,
        hour,
        percent,
        flow,
        moisture,
    })
}

fn parse_anodes(words: &mut Words) -> Result<Anodes, String> {
    let unit = short_after(words, "unit")?;
    let month = short_after(words, "month")?;
    let metal = number_after(words, "metal")?;
    let net_use = number_after(words, "use")?;
    let sulphur = hundredths_after(words, "sulphur")?;
    let ash = hundredths_after(words, "ash")?;
    let other = hundredths_after(words, "other")?;
    words.end()?;
    Ok(Anodes {
        unit,
        month,
        metal,
        net_use,
        sulphur,
        ash,
        other,
    })
}

fn parse_raw(words: &mut Words) -> Result<[u8; LINE], String> {
    let bytes = words.raw_bytes("raw")?;
    words.end()?;
    Ok(bytes)
}

fn short_after(words: &mut Words, name: &str) -> Result<u16, String> {
    words.expect(name)?;
    words.number16(name)
}

fn number_after(words: &mut Words, name: &str) -> Result<u32, String> {
    words.expect(name)?;
    words.number32(name)
}

fn hundredths_after(words: &mut Words, name: &str) -> Result<u16, String> {
    words.expect(name)?;
    words.hundredths16(name)
}

fn number_if_said(words: &mut Words, name: &str) -> Result<Option<u32>, String> {
    if !words.takes(name) {
        return Ok(None);
    }
    words.number32(name).map(Some)
}
