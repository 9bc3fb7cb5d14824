//! Which earlier records an hour, or anodes, are held against.

use second::answer::{Answer, Frame};
use second::book::Book;
use second::bytes::{u16_at, u32_at};
use second::lines::Monitor;
use second::record::{judge, Reason};

use super::{is_of, is_same, key, repeating, Place};
use crate::draft::LINE;
use crate::repeats::Kind;

/// Only earlier records of a kind that `stands` lets stand make a repeat.
pub(super) fn standing_of(
    frame: &Frame,
    kind: Kind,
    stands: impl Fn(&Book, &[u8]) -> bool,
) -> Answer {
    repeating(frame, kind, |place| {
        let same = |line: &&&[u8]| is_same(line, place.line());
        let mut earlier = place.earlier().iter().filter(same);
        earlier.any(|line| stands(place.book, line))
    })
}

fn standing(frame: &Frame, stands: impl Fn(&Book, &[u8]) -> bool) -> Answer {
    standing_of(frame, Kind::Hours, stands)
}

pub fn holds_hours_against_those_that_counted(frame: &Frame) -> Answer {
    standing(frame, |book, line| judge(book, line).is_ok())
}

pub fn holds_hours_against_those_in_good_form(frame: &Frame) -> Answer {
    standing(frame, |book, line| judge(book, line) != Err(Reason::Form))
}

pub fn holds_hours_against_those_in_range(frame: &Frame) -> Answer {
    standing(frame, |book, line| {
        judge(book, line) != Err(Reason::OutOfRange)
    })
}

/// A year that is no leap year.
pub fn knows_8_760_hours(frame: &Frame) -> Answer {
    standing(frame, |_, line| u16_at(line, 6) <= 8_760)
}

pub fn overlooks_repeats_on_dry_units(frame: &Frame) -> Answer {
    standing(frame, |book, line| {
        book.unit(u16_at(line, 2))
            .is_some_and(|unit| unit.monitor != Monitor::Dry)
    })
}

pub fn overlooks_repeats_on_the_64th_unit(frame: &Frame) -> Answer {
    let line_of_64th = |book: &[u8]| {
        let trailer = &book[book.len() - LINE..];
        let units = &book[u32_at(trailer, 8) as usize..u32_at(trailer, 12) as usize];
        units.chunks(LINE).nth(63).map(|line| u16_at(line, 0))
    };
    standing(frame, |_, line| {
        line_of_64th(frame.book) != Some(u16_at(line, 2))
    })
}

/// A record is held against others by the same bytes, if `stands` lets them.
pub(super) fn of_kinds(frame: &Frame, kind: Kind, stands: impl Fn(u8) -> bool) -> Answer {
    repeating(frame, kind, |place| {
        let mut standing = place.earlier().iter().filter(|line| stands(line[0]));
        standing.any(|line| key(line) == key(place.line()))
    })
}

pub fn holds_hours_against_records_of_any_kind(frame: &Frame) -> Answer {
    of_kinds(frame, Kind::Hours, |_| true)
}

/// That is, of kinds 2 and 3.
pub fn asks_one_bit_of_the_kind(frame: &Frame) -> Answer {
    of_kinds(frame, Kind::Hours, |kind| kind & 0b11 >= 2)
}

/// Only so many of the records before one are looked at.
pub(super) fn within(frame: &Frame, kind: Kind, most: usize) -> Answer {
    repeating(frame, kind, |place| {
        let first = place.index.saturating_sub(most);
        place.is_among(&place.lines[first..place.index])
    })
}

pub fn compares_neighbours_alone(frame: &Frame) -> Answer {
    within(frame, Kind::Hours, 1)
}

pub fn looks_back_over_two_thousand_records(frame: &Frame) -> Answer {
    within(frame, Kind::Hours, 2_000)
}

/// So that fuel records may stand between.
pub fn compares_the_latest_hour_alone(frame: &Frame) -> Answer {
    repeating(frame, Kind::Hours, |place| {
        let latest = place
            .earlier()
            .iter()
            .rfind(|line| is_of(line, Kind::Hours));
        latest.is_some_and(|line| is_same(line, place.line()))
    })
}

/// As if place 0 stood for no place.
pub fn overlooks_the_first_record_of_the_book(frame: &Frame) -> Answer {
    repeating(frame, Kind::Hours, |place| {
        place.index > 0 && place.is_among(&place.lines[1..place.index])
    })
}

pub(super) fn times_before(place: &Place) -> usize {
    let same = |line: &&&[u8]| is_same(line, place.line());
    place.earlier().iter().filter(same).count()
}

pub fn lets_the_third_of_an_hour_count(frame: &Frame) -> Answer {
    repeating(frame, Kind::Hours, |place| times_before(place) == 1)
}

/// As a bit that each record turns over.
pub fn lets_every_second_of_an_hour_count(frame: &Frame) -> Answer {
    repeating(frame, Kind::Hours, |place| times_before(place) % 2 == 1)
}

pub fn sets_the_first_of_a_pair_aside(frame: &Frame) -> Answer {
    repeating(frame, Kind::Hours, |place| place.is_among(place.later()))
}

pub fn sets_both_of_a_pair_aside(frame: &Frame) -> Answer {
    repeating(frame, Kind::Hours, |place| {
        place.is_among(place.earlier()) || place.is_among(place.later())
    })
}
