//! Full books in which every hour is another, and ones in which hours or anodes are
//! repeated, as near to each other and as far apart as can be.

use crate::draft::{FULL_BOOK, LAST_HOUR, LAST_MONTH, LINE};
use crate::exchange::{Exchange, Outcome};
use crate::expectation::{withheld, Expectation, Field};
use crate::job;
use crate::random::Random;
use crate::repeats::{book, monitored, of_reason, Judged, Key, Kind, COUNTED, REPEATED};

struct Filling {
    name: &'static str,
    /// So many are listed, numbered from 1.
    units: u16,
    /// The record at a place of so many.
    key: fn(u16, u16) -> Key,
    /// The kind of the record at a place.
    kind: fn(u16) -> Kind,
    /// The place of the first repeat among so many, if there is one.
    first_repeat: Option<fn(u16) -> u16>,
}

const fn distinct(name: &'static str, units: u16, key: fn(u16, u16) -> Key) -> Filling {
    Filling {
        name,
        units,
        key,
        kind: |_| Kind::Hours,
        first_repeat: None,
    }
}

const fn repeated(
    name: &'static str,
    units: u16,
    key: fn(u16, u16) -> Key,
    first_repeat: fn(u16) -> u16,
) -> Filling {
    Filling {
        first_repeat: Some(first_repeat),
        ..distinct(name, units, key)
    }
}

/// Each month of each of 64 units has its anodes once.
const MOST_ANODES: u16 = 64 * LAST_MONTH;

fn month_of_64_units(place: u16, _: u16) -> Key {
    (1 + place % 64, 1 + place / 64 % LAST_MONTH)
}

const FILLINGS: [Filling; 19] = [
    Filling {
        kind: |place| match place < MOST_ANODES {
            true => Kind::Anodes,
            false => Kind::Hours,
        },
        ..distinct(
            "anodes of each month of 64 units, then hours",
            64,
            |place, _| match place < MOST_ANODES {
                true => month_of_64_units(place, 0),
                false => (1 + place % 64, 1 + (place - MOST_ANODES) / 64),
            },
        )
    },
    Filling {
        kind: |place| match place % 2 {
            0 => Kind::Anodes,
            _ => Kind::Hours,
        },
        ..repeated(
            "anodes and hours by turns, with the same numbers",
            64,
            |place, _| month_of_64_units(place / 2, 0),
            |_| 2 * MOST_ANODES,
        )
    },
    Filling {
        kind: |_| Kind::Anodes,
        ..repeated(
            "anodes of each month of 64 units, over and over",
            64,
            month_of_64_units,
            |_| MOST_ANODES,
        )
    },
    Filling {
        kind: |_| Kind::Anodes,
        ..repeated("one month's anodes alone", 1, |_, _| (1, LAST_MONTH), |_| 1)
    },
    Filling {
        kind: |place| match place {
            0 => Kind::Anodes,
            _ => Kind::Hours,
        },
        ..distinct(
            "hours after anodes of the first one's number",
            1,
            |place, _| (1, place.max(1)),
        )
    },
    distinct("hours from the first on", 1, |place, _| (1, 1 + place)),
    distinct("hours from the last back", 1, |place, _| {
        (1, LAST_HOUR - place)
    }),
    distinct("every fourth hour", 1, |place, _| (1, 4 * (1 + place))),
    distinct("hours of two units by turns", 2, |place, _| {
        (1 + place % 2, 1 + place / 2)
    }),
    distinct("hours of one unit after the other", 2, |place, count| {
        (1 + place / count.div_ceil(2), 1 + place % count.div_ceil(2))
    }),
    distinct("hours of 64 units by turns", 64, |place, _| {
        (1 + place % 64, 1 + place / 64)
    }),
    distinct("hours of 64 units in order", 64, |place, count| {
        (1 + place / count.div_ceil(64), LAST_HOUR - place)
    }),
    repeated(
        "the second half as the first",
        1,
        |place, count| (1, 1 + place % (count / 2)),
        |count| count / 2,
    ),
    repeated(
        "the second half as the first, 64 units",
        64,
        |place, count| (1 + place % (count / 2) % 64, 1 + place % (count / 2) / 64),
        |count| count / 2,
    ),
    repeated(
        "the second half as the first from its end",
        1,
        |place, count| (1, 1 + place.min(count - 1 - place)),
        |count| count.div_ceil(2),
    ),
    repeated(
        "each hour at once again",
        1,
        |place, _| (1, 1 + place / 2),
        |_| 1,
    ),
    repeated("one hour alone", 1, |_, _| (1, LAST_HOUR), |_| 1),
    repeated(
        "the last hour as the first",
        1,
        |place, count| (1, 1 + place % (count - 1)),
        |count| count - 1,
    ),
    repeated(
        "the last two hours alike",
        1,
        |place, count| (1, 1 + place.min(count - 2)),
        |count| count - 1,
    ),
];

pub fn run(exchange: &mut Exchange, rng: &mut Random) -> Outcome<()> {
    for filling in FILLINGS {
        exchange.case(format!("full books, {}", filling.name));
        held(exchange, rng, &filling)?;
    }
    Ok(())
}

impl Filling {
    fn count(&self) -> u16 {
        (FULL_BOOK / LINE) as u16 - 1 - self.units
    }

    fn records(&self) -> Vec<(Kind, Key)> {
        let record = |place| ((self.kind)(place), (self.key)(place, self.count()));
        (0..self.count()).map(record).collect()
    }

    fn told(&self) -> Vec<Expectation> {
        let kilograms = |place| (self.kind)(place).kilograms();
        match self.first_repeat {
            Some(first) => withheld(u64::from(first(self.count())), REPEATED),
            None => vec![
                Field::Number.is(0),
                Field::FossilKg.is((0..self.count()).map(kilograms).sum()),
            ],
        }
    }
}

/// The whole job, and some of the records by themselves: those at either end, in the
/// middle, and a few others.
fn held(exchange: &mut Exchange, rng: &mut Random, filling: &Filling) -> Outcome<()> {
    let records = filling.records();
    let line = |&(kind, key): &(Kind, Key)| -> Judged { (kind.record(key), COUNTED) };
    let lines: Vec<Judged> = records.iter().map(line).collect();
    let book = book(&monitored(1..=filling.units), &lines);
    let count = records.len();
    job::whole(exchange, rng, &book, filling.told())?;
    job::in_wakes(exchange, rng, &book)?;
    let half = count / 2;
    let random = [0; 4].map(|_| rng.index(count));
    let places = [0, 1, half - 1, half, half + 1, count - 2, count - 1];
    for place in places.into_iter().chain(random) {
        let reason = match records[..place].contains(&records[place]) {
            true => REPEATED,
            false => COUNTED,
        };
        job::record(exchange, &book, place as u32, of_reason(reason))?;
    }
    Ok(())
}
