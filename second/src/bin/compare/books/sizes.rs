//! Books of unusual size: no records, 64 and 65 lines of a kind, full books.

use crate::draft::{numbered_apart, unit, Draft, FuelLine, FIRST_SET, FULL_BOOK, LINE};
use crate::exchange::{Exchange, Outcome};
use crate::expectation::Field;
use crate::job;
use crate::random::Random;
use crate::random_books;

const FULL_BOOKS: usize = 2;

pub fn run(exchange: &mut Exchange, rng: &mut Random) -> Outcome<()> {
    exchange.case("no records");
    for (units, fuels) in [(0, 0), (1, 0), (0, 1), (64, 64)] {
        let printed = vec![Field::Number.is(0), Field::Co2eKg.is(0)];
        let book = listing(units, fuels).bytes();
        job::whole(exchange, rng, &book, printed)?;
        job::everything(exchange, rng, &book, 0)?;
    }
    exchange.case("64 and 65 unit and fuel lines");
    many_lines(exchange, rng)?;
    exchange.case("full books");
    for _ in 0..FULL_BOOKS * exchange.run.settings.times {
        let book = full(rng, FULL_BOOK);
        job::everything(exchange, rng, &book, FULL_BOOK / LINE)?;
    }
    exchange.case("full books without unit and fuel lines");
    let mut bare = listing(0, 0);
    bare.records = vec![[1; LINE]; bare.room(FULL_BOOK)];
    let first_set_aside = vec![
        Field::Number.is(41),
        Field::Reason.is(1),
        Field::Count.is(0),
    ];
    job::whole(exchange, rng, &bare.bytes(), first_set_aside)?;
    job::records(exchange, &bare.bytes(), bare.records.len())?;
    exchange.case("books that are longer than full ones");
    for more in [LINE, 2 * LINE, FULL_BOOK] {
        let book = full(rng, FULL_BOOK + more);
        job::whole(exchange, rng, &book, Vec::new())?;
        job::in_wakes(exchange, rng, &book)?;
        job::records(exchange, &book, 2)?;
    }
    Ok(())
}

/// A book of that many unit and fuel lines, numbered in steps of 1,000.
fn listing(units: u16, fuels: u16) -> Draft {
    let fuel = |number| FuelLine {
        number,
        kind: 1,
        class: 3,
        heat: 20_000,
        co2: 90_000,
        ch4: 30_000,
        n2o: 4_000,
        mvc: 0,
    };
    Draft {
        records: Vec::new(),
        units: (1..=units)
            .map(|n| unit(n * 1_000, n % 2 == 0, 2_500))
            .collect(),
        fuels: (1..=fuels).map(|n| fuel(n * 1_000).line()).collect(),
        year: 2099,
        warming_set: FIRST_SET,
    }
}

fn many_lines(exchange: &mut Exchange, rng: &mut Random) -> Outcome<()> {
    for (units, fuels, number) in [(64, 64, 0), (65, 64, 22), (64, 65, 23), (65, 65, 22)] {
        let mut draft = listing(units, fuels);
        let records = (0..200).map(|_| random_books::good_record(rng, &draft));
        draft.records = numbered_apart(records.collect());
        let book = draft.bytes();
        let frame_of_first = vec![Field::Number.is(number)];
        job::record(exchange, &book, 0, frame_of_first)?;
        job::everything(exchange, rng, &book, draft.records.len())?;
    }
    Ok(())
}

/// A book of `length` bytes whose records are all counted, but for one
/// every second time.
fn full(rng: &mut Random, length: usize) -> Vec<u8> {
    let mut draft = random_books::listing(rng);
    let room = draft.room(length);
    draft.records = random_books::counted_records(rng, &draft, room);
    if rng.one_in(2) {
        let place = rng.index(room);
        draft.records[place] = random_books::wild_record(rng, &draft);
    }
    draft.bytes()
}
