//! The canonical text of a book: the year, the units, the fuels, the records, a line each.

use crate::book::{in_hundredths, in_tenths, Book, Monitor, Unit, Warming};
use crate::fuel::Fuel;
use crate::record::{Anodes, Carbon, Delivery, Heat, Hour, Record};
use crate::single;

pub fn text(book: &Book) -> String {
    let mut lines = vec![year_line(book)];
    lines.extend(book.units().iter().map(unit_line));
    lines.extend(book.fuels().iter().map(fuel_line));
    lines.extend(book.records().iter().map(record_line));
    lines.join("\n") + "\n"
}

/// The first set goes without saying, as in a text that doesn't speak of warming values.
fn year_line(book: &Book) -> String {
    let warming = match book.warming() {
        Warming::First => String::new(),
        set => format!(" warming {}", set.word()),
    };
    format!("year {}{warming}", book.year())
}

fn unit_line(unit: &Unit) -> String {
    let monitor = match unit.monitor {
        None => "",
        Some(Monitor::Wet) => " monitor",
        Some(Monitor::Dry) => " monitor dry",
    };
    format!(
        "unit {} rating {}{monitor}",
        unit.number,
        in_tenths(unit.rating)
    )
}

fn fuel_line(fuel: &Fuel) -> String {
    let heat = words_unless_0("heat", fuel.heat);
    let molar_volume = words_unless_0("molar-volume", fuel.molar_volume);
    format!(
        "fuel {} {} {}{heat} co2 {} ch4 {} n2o {}{molar_volume}",
        fuel.number,
        fuel.kind.word(),
        fuel.class.word(),
        fuel.co2,
        fuel.ch4,
        fuel.n2o
    )
}

/// What a fuel line has none of goes without saying.
fn words_unless_0(name: &str, value: u32) -> String {
    match value {
        0 => String::new(),
        _ => format!(" {name} {value}"),
    }
}

pub fn record_line(record: &Record) -> String {
    match record {
        Record::Delivery(delivery) => delivery_line(delivery),
        Record::Hour(hour) => hour_line(hour),
        Record::Anodes(anodes) => anodes_line(anodes),
        Record::Raw(bytes) => {
            let digits: String = bytes.iter().map(|byte| format!("{byte:02X}")).collect();
            format!("raw {digits}")
        }
    }
}

fn delivery_line(delivery: &Delivery) -> String {
    let Delivery {
        unit,
        fuel,
        month,
        amount,
        heat,
        carbon,
    } = delivery;
    let start = format!("delivery unit {unit} fuel {fuel} month {month} amount {amount}");
    let heat = heat.map_or(String::new(), heat_words);
    match carbon {
        None => format!("{start}{heat}"),
        Some(Carbon::PerUnit(carbon)) => format!("{start}{heat} carbon {carbon}"),
        Some(Carbon::ByWeight {
            per_kg,
            molecular_weight,
        }) => format!("gas-{start} carbon {per_kg} molecular-weight {molecular_weight}{heat}"),
    }
}

fn heat_words(heat: Heat) -> String {
    match heat {
        Heat::High(value) => format!(" heat {value}"),
        Heat::Low(value) => format!(" low-heat {value}"),
    }
}

fn hour_line(sent: &Hour) -> String {
    let (unit, hour) = (sent.unit, sent.hour);
    let (percent, flow) = (single::spell(sent.percent), single::spell(sent.flow));
    let moisture = match sent.moisture {
        0 => String::new(),
        tenths => format!(" moisture {}", in_tenths(tenths.into())),
    };
    format!("hour unit {unit} hour {hour} percent {percent} flow {flow}{moisture}")
}

fn anodes_line(anodes: &Anodes) -> String {
    let Anodes {
        unit,
        month,
        metal,
        net_use,
        ..
    } = anodes;
    let [sulphur, ash, other] =
        [anodes.sulphur, anodes.ash, anodes.other].map(|impurity| in_hundredths(impurity.into()));
    format!(
        "anodes unit {unit} month {month} metal {metal} use {net_use} sulphur {sulphur} ash {ash} \
         other {other}"
    )
}
