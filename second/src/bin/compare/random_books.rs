//! Random books, biased to the edges of what the requirements allow.

pub mod analysed_gas;
mod anodes;
mod echo;

pub use echo::echo;

use second::book::Book;
use second::bytes::u16_at;
use second::earlier_records::EarlierRecords;
use second::record::judge;

use crate::draft::{
    dry_unit, hour, unit, with_moisture, Burnt, Draft, FuelLine, Line, DRY, LINE, MOISTURE_PLACE,
    MONITORED, MOST_LOW_HEAT, MOST_MOISTURE, NATURAL_GAS, SETS,
};
use crate::exchange::{Exchange, Outcome};
use crate::job;
use crate::random::Random;
use crate::specials::{singles, FLOW_LIMIT, PERCENT_LIMIT};

const BOOKS: usize = 4_000;

pub fn run(exchange: &mut Exchange, rng: &mut Random) -> Outcome<()> {
    exchange.case("random books");
    for _ in 0..BOOKS * exchange.run.settings.times {
        let draft = book(rng);
        job::everything(exchange, rng, &draft.bytes(), draft.records.len())?;
    }
    Ok(())
}

/// A book of up to 40 records. Half of the books have only records that are
/// counted, so that reports with figures are as common as refusals; half of the
/// others have hours and anodes again that stand in earlier records.
pub fn book(rng: &mut Random) -> Draft {
    let mut draft = listing(rng);
    let count = rng.index(40);
    if rng.one_in(2) {
        draft.records = counted_records(rng, &draft, count);
        return draft;
    }
    let has_echoes = rng.one_in(2);
    for _ in 0..count {
        let echo = (has_echoes && rng.one_in(3)).then(|| echo(rng, &draft.records));
        let record = match (echo.flatten(), rng.below(3)) {
            (Some(echo), _) => echo,
            (None, 0) => wild_record(rng, &draft),
            (None, _) => good_record(rng, &draft),
        };
        draft.records.push(record);
    }
    draft
}

/// Records that add to the ledgers, for a listing that is sound.
pub fn counted_records(rng: &mut Random, listing: &Draft, count: usize) -> Vec<Line> {
    let bytes = listing.bytes();
    let book = Book::read(&bytes).expect("the listing is sound");
    let mut earlier = EarlierRecords::default();
    let mut records = Vec::new();
    while records.len() < count {
        let record = good_record(rng, listing);
        if judge(&book, &record).is_ok() && !earlier.go_through(&record) {
            records.push(record);
        }
    }
    records
}

/// Unit and fuel lines that are sound, at most eight of each.
pub fn listing(rng: &mut Random) -> Draft {
    let set_and_year = rng.below(200) as u16;
    let mut draft = Draft {
        records: Vec::new(),
        units: Vec::new(),
        fuels: Vec::new(),
        year: 2000 + set_and_year / 2,
        warming_set: SETS[usize::from(set_and_year % 2)],
    };
    for number in rising(rng) {
        draft.units.push(any_unit(rng, number));
    }
    for number in rising(rng) {
        draft.fuels.push(fuel(rng, number).line());
    }
    draft
}

fn rising(rng: &mut Random) -> Vec<u16> {
    let step = rng.pick(&[1, 2, 256, 8_000]);
    let count = 1 + rng.below(8) as u16;
    (1..=count).map(|place| place * step).collect()
}

fn any_unit(rng: &mut Random, number: u16) -> Line {
    let rating = rng.pick(&[1, 2_499, 2_500, 2_501, 99_999, 100_000]);
    match rng.below(5) {
        0 => unit(number, true, rating),
        1 => dry_unit(number, rating),
        _ => unit(number, false, rating),
    }
}

/// Two of three with a molar volume, of whatever kind.
fn fuel(rng: &mut Random, number: u16) -> FuelLine {
    let mvc = match rng.below(3) {
        0 => 0,
        _ => analysed_gas::mvc(rng),
    };
    let choices = [(1, 0), (2, 0), (3, 0), (3, 1), (2, 2), (1, 3)];
    let (kind, class) = rng.pick(&choices);
    let mut or_zero = |zero_in: u64| match rng.one_in(zero_in) {
        true => 0,
        false => rng.within(200_000),
    };
    FuelLine {
        number,
        kind,
        class,
        heat: or_zero(3),
        ch4: or_zero(6),
        n2o: or_zero(6),
        co2: rng.within(200_000),
        mvc,
    }
}

/// A record in good form and in range, for a listed unit and fuel; it may
/// still have no permitted method or no heat.
pub fn good_record(rng: &mut Random, draft: &Draft) -> Line {
    let units = draft.units.iter().copied();
    let monitored: Vec<Line> = units.filter(|unit| unit[2] & MONITORED != 0).collect();
    if !monitored.is_empty() && rng.one_in(3) {
        let unit = rng.pick(&monitored);
        return good_hour(rng, unit);
    }
    if rng.one_in(4) {
        let unit = u16_at(&rng.pick(&draft.units), 0);
        return anodes::good(rng, unit);
    }
    let fuel = rng.pick(&draft.fuels);
    if analysed_gas::is_of(&fuel) && rng.one_in(2) {
        let unit = u16_at(&rng.pick(&draft.units), 0);
        return analysed_gas::good(rng, unit, &fuel);
    }
    let (heat, heat_is_low) = heat(rng, &fuel);
    let record = Burnt {
        unit: u16_at(&rng.pick(&draft.units), 0),
        fuel: u16_at(&fuel, 0),
        month: 1 + rng.below(12) as u16,
        amount: rng.within(100_000_000),
        heat,
        heat_is_low,
        carbon: rng.one_in(4).then(|| rng.within(1_000_000)),
    };
    record.line()
}

/// Heat that a record of the fuel of this line may have, and whether it is a low value.
fn heat(rng: &mut Random, fuel: &Line) -> (Option<u32>, bool) {
    let is_low = fuel[3] == NATURAL_GAS && rng.one_in(2);
    let heat = match is_low {
        true => Some(low_heat(rng)),
        false => rng.one_in(2).then(|| rng.within(200_000)),
    };
    (heat, is_low)
}

/// An hour that counts, of the monitored unit of this line.
fn good_hour(rng: &mut Random, unit: Line) -> Line {
    let percent = PERCENT_LIMIT - rng.below(0x0800_0000) as u32;
    let flow = FLOW_LIMIT - rng.below(0x0C00_0000) as u32;
    let number = 1 + rng.below(8_784) as u16;
    let wet = hour(u16_at(&unit, 0), number, percent, flow);
    match unit[2] & DRY {
        0 => wet,
        _ => with_moisture(wet, moisture(rng)),
    }
}

/// Moisture in range, often at an end of the range or in its middle.
fn moisture(rng: &mut Random) -> u16 {
    match rng.one_in(3) {
        true => rng.pick(&[0, 1, 500, MOST_MOISTURE - 1, MOST_MOISTURE]),
        false => rng.below(u64::from(MOST_MOISTURE) + 1) as u16,
    }
}

/// A low heat value in range, often one that ends in 50, whose 1.11-fold is a
/// half, or next to it.
fn low_heat(rng: &mut Random) -> u32 {
    let hundreds = MOST_LOW_HEAT / 100;
    match rng.one_in(2) {
        true => rng.within(MOST_LOW_HEAT),
        false => 100 * rng.below(u64::from(hundreds)) as u32 + rng.pick(&[49, 50, 51]),
    }
}

/// A record with anything at or past its edges.
pub fn wild_record(rng: &mut Random, draft: &Draft) -> Line {
    let unit = u16_at(&rng.pick(&draft.units), 0) + u16::from(rng.one_in(10));
    let mut line = match rng.below(6) {
        0 | 1 => wild_hour(rng, unit),
        2 => anodes::wild(rng, unit),
        3 => analysed_gas::wild(rng, unit, draft),
        _ => wild_fuel(rng, unit, draft),
    };
    if rng.one_in(12) {
        line[rng.index(LINE)] = rng.byte();
    }
    line
}

/// Heat at or past its edges, or none.
fn wild_heat(rng: &mut Random) -> Option<u32> {
    rng.one_in(2).then(|| {
        let most = rng.pick(&[MOST_LOW_HEAT, 200_000]);
        rng.edgy(most)
    })
}

fn wild_fuel(rng: &mut Random, unit: u16, draft: &Draft) -> Line {
    let record = Burnt {
        unit,
        fuel: u16_at(&rng.pick(&draft.fuels), 0) + u16::from(rng.one_in(10)),
        month: rng.edgy(12) as u16,
        amount: rng.edgy(100_000_000),
        heat: wild_heat(rng),
        heat_is_low: rng.one_in(3),
        carbon: rng.one_in(2).then(|| {
            let most = rng.pick(&[1_000_000, 4_000_000]);
            rng.edgy(most)
        }),
    };
    record.line()
}

/// Half of them without moisture, which on most units is reason 1 and leaves no
/// other to be seen, and a few with something in the byte after it.
fn wild_hour(rng: &mut Random, unit: u16) -> Line {
    let percent = rng.pick(&singles(PERCENT_LIMIT));
    let flow = rng.pick(&singles(FLOW_LIMIT));
    let mut line = hour(unit, rng.edgy(8_784) as u16, percent, flow);
    if rng.one_in(2) {
        line = with_moisture(line, rng.edgy(u32::from(MOST_MOISTURE)) as u16);
    }
    line[MOISTURE_PLACE + 2] = u8::from(rng.one_in(12));
    line
}
